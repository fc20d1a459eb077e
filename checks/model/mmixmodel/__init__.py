"""An independent model of MMIXAL, the mmo object format and MMIX.

The language, the object format and the machine are those of Donald Knuth's MMIXware (LNCS 1750) and of The Art of
Computer Programming, volume 1, fascicle 1. Where these leave a choice, each module states the rule that holds here.
Nothing in this package is taken from the program that it is compared with.
"""

# Prints bytes, which it reads as numbers, in one line of UTF-8: \\ means a backslash, \n and \t for the end of a line
# and a tab, \xHH for a byte of another control character, of one that turns the direction of a text, or of no character.
# So two texts stay two, and none looks like another. Where `most` is given, what is longer is cut, and has ... at its end.

function is_between(n, low, high) {
  return n != "" && n >= low && n <= high
}

# how many bytes the character has that begins at a place, from 2 to 4, or 0
function width(at,    first, second, most, i) {
  first = byte[at]
  second = byte[at + 1]
  most = first >= 194 && first <= 223 ? 2 : first >= 224 && first <= 239 ? 3 : first >= 240 && first <= 244 ? 4 : 0
  # no controls, no long forms, no surrogates, nothing above U+10FFFF, and not U+FFFE and U+FFFF
  if (first == 194 && !is_between(second, 160, 191)) return 0
  if (first == 224 && !is_between(second, 160, 191) || first == 237 && !is_between(second, 128, 159)) return 0
  if (first == 240 && !is_between(second, 144, 191) || first == 244 && !is_between(second, 128, 143)) return 0
  if (first == 239 && second == 191 && byte[at + 2] >= 190) return 0
  for (i = 1; i < most; i++)
    if (!is_between(byte[at + i], 128, 191)) return 0
  return turns(first, second, byte[at + 2]) ? 0 : most
}

# whether a character ends a line or turns the direction of a text: U+061C, U+200E and F, U+2028 to E, and U+2066 to 9
function turns(first, second, third) {
  if (first == 216) return second == 156
  if (first != 226) return 0
  if (second == 128) return is_between(third, 142, 143) || is_between(third, 168, 174)
  return second == 129 && is_between(third, 166, 169)
}

function escaped(    out, at, i, n) {
  for (at = 1; at <= count; at += n) {
    n = 1
    if (byte[at] == 92) out = out "\\\\"
    else if (byte[at] == 10) out = out "\\n"
    else if (byte[at] == 9) out = out "\\t"
    else if (is_between(byte[at], 32, 126)) out = out sprintf("%c", byte[at])
    else if (n = width(at)) {
      for (i = 0; i < n; i++) out = out sprintf("%c", byte[at + i])
    } else {
      n = 1
      out = out sprintf("\\x%02x", byte[at])
    }
  }
  return out
}

{ for (i = 1; i <= NF; i++) byte[++count] = $i + 0 }

END {
  if (most && count > most) {
    # no character is cut in two
    for (count = most; count > 0 && is_between(byte[count + 1], 128, 191); count--) {}
    end = "..."
    delete byte[count + 1]
  }
  print escaped() end
}

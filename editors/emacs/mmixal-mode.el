;;; mmixal-mode.el --- major mode for MMIXAL, the assembly language of MMIX  -*- lexical-binding: t; -*-

;; License: MIT (a part of mmixware)
;; Keywords: languages
;; Package-Requires: ((emacs "25.1"))

;;; Commentary:

;; Put this file on the load path and this into your init file:
;;
;;     (require 'mmixal-mode)
;;
;; Files *.mms then open in this mode.  C-c C-c lists all faults of the file by mmixview, C-c C-l lists the file with the
;; bytes of each line, and C-c C-r runs it by mmixware.

;;; Code:

(require 'compile)
(require 'subr-x)

;; words of the tables (editors/words.py writes them)
(defconst mmixal-instructions
  '(
    "16ADDU" "2ADDU" "4ADDU" "8ADDU" "ADD" "ADDU" "AND" "ANDN" "ANDNH" "ANDNL" "ANDNMH" "ANDNML" "BDIF" "BEV"
    "BN" "BNN" "BNP" "BNZ" "BOD" "BP" "BZ" "CMP" "CMPU" "CSEV" "CSN" "CSNN" "CSNP" "CSNZ" "CSOD" "CSP" "CSWAP"
    "CSZ" "DIV" "DIVU" "FADD" "FCMP" "FCMPE" "FDIV" "FEQL" "FEQLE" "FINT" "FIX" "FIXU" "FLOT" "FLOTU" "FMUL"
    "FREM" "FSQRT" "FSUB" "FUN" "FUNE" "GET" "GETA" "GO" "INCH" "INCL" "INCMH" "INCML" "JMP" "LDA" "LDB"
    "LDBU" "LDHT" "LDO" "LDOU" "LDSF" "LDT" "LDTU" "LDUNC" "LDVTS" "LDW" "LDWU" "MOR" "MUL" "MULU" "MUX"
    "MXOR" "NAND" "NEG" "NEGU" "NOR" "NXOR" "ODIF" "OR" "ORH" "ORL" "ORMH" "ORML" "ORN" "PBEV" "PBN" "PBNN"
    "PBNP" "PBNZ" "PBOD" "PBP" "PBZ" "POP" "PREGO" "PRELD" "PREST" "PUSHGO" "PUSHJ" "PUT" "RESUME" "SADD"
    "SAVE" "SET" "SETH" "SETL" "SETMH" "SETML" "SFLOT" "SFLOTU" "SL" "SLU" "SR" "SRU" "STB" "STBU" "STCO"
    "STHT" "STO" "STOU" "STSF" "STT" "STTU" "STUNC" "STW" "STWU" "SUB" "SUBU" "SWYM" "SYNC" "SYNCD" "SYNCID"
    "TDIF" "TRAP" "TRIP" "UNSAVE" "WDIF" "XOR" "ZSEV" "ZSN" "ZSNN" "ZSNP" "ZSNZ" "ZSOD" "ZSP" "ZSZ"))
(defconst mmixal-directives
  '(
    "BYTE" "GREG" "IS" "LOC" "LOCAL" "OCTA" "PREFIX" "TETRA" "WYDE"))
(defconst mmixal-special
  '(
    "rA" "rB" "rBB" "rC" "rD" "rE" "rF" "rG" "rH" "rI" "rJ" "rK" "rL" "rM" "rN" "rO" "rP" "rQ" "rR" "rS" "rT"
    "rTT" "rU" "rV" "rW" "rWW" "rX" "rXX" "rY" "rYY" "rZ" "rZZ"))
(defconst mmixal-constants
  '(
    "BinaryRead" "BinaryReadWrite" "BinaryWrite" "D_BIT" "D_Handler" "Data_Segment" "Fclose" "Fgets" "Fgetws"
    "Fopen" "Fputs" "Fputws" "Fread" "Fseek" "Ftell" "Fwrite" "Halt" "I_BIT" "I_Handler" "Inf" "O_BIT"
    "O_Handler" "Pool_Segment" "ROUND_CURRENT" "ROUND_DOWN" "ROUND_NEAR" "ROUND_OFF" "ROUND_UP"
    "Stack_Segment" "StdErr" "StdIn" "StdOut" "TextRead" "TextWrite" "U_BIT" "U_Handler" "V_BIT" "V_Handler"
    "W_BIT" "W_Handler" "X_BIT" "X_Handler" "Z_BIT" "Z_Handler"))
;; end of the words

(defgroup mmixal nil
  "MMIXAL, the assembly language of MMIX."
  :group 'languages)

(defcustom mmixal-mmixware "mmixware"
  "The program that runs a source."
  :type 'string)

(defcustom mmixal-mmixview "mmixview"
  "The program that lists a source and shows its faults."
  :type 'string)

(defconst mmixal--blank "[\t\v\f\r ]")

(defconst mmixal--letter "[A-Za-z0-9:_\177[:nonascii:]]"
  "A letter or a digit of MMIXAL.")

(defun mmixal--table (&rest lists)
  "A table of the words of LISTS, each of which has its face after it."
  (let ((table (make-hash-table :test #'equal)))
    (while lists
      (dolist (word (pop lists))
        (puthash word (car lists) table))
      (pop lists))
    table))

(defconst mmixal--operations
  (mmixal--table mmixal-instructions 'font-lock-keyword-face
                 mmixal-directives 'font-lock-preprocessor-face))

(defconst mmixal--symbols
  (mmixal--table mmixal-special 'font-lock-builtin-face
                 mmixal-constants 'font-lock-constant-face))

(defun mmixal--take (regexp end)
  "Move over REGEXP at point, not beyond END.  Return its text."
  (when (looking-at regexp)
    (goto-char (min (match-end 0) end))
    (buffer-substring-no-properties (match-beginning 0) (point))))

(defun mmixal--face (start face)
  "Give the text from START to point FACE."
  (put-text-property start (point) 'face face))

(defun mmixal--text-of-name ()
  "The letters and digits at point."
  (save-excursion (or (mmixal--take (concat mmixal--letter "+") (line-end-position)) "")))

(defun mmixal--face-of-term (end)
  "Move over the term of an operand at point, which ends before END.
Return its face, or nil."
  (cond ((mmixal--take "\"[^\"\n]*\"\\|'[^\n]'" end) 'font-lock-string-face)
        ((mmixal--take "[\"'].*" end) 'font-lock-warning-face)
        ((mmixal--take "#[0-9A-Fa-f]+" end) 'font-lock-constant-face)
        ((mmixal--take "\\$[0-9]*" end) 'font-lock-variable-name-face)
        ((mmixal--take "@" end) 'font-lock-builtin-face)
        ((string-match-p "\\`[0-9][BF]\\'" (mmixal--text-of-name)) (forward-char 2) 'font-lock-type-face)
        ((mmixal--take "[0-9]+" end) 'font-lock-constant-face)
        ((looking-at mmixal--letter)
         (gethash (string-remove-prefix ":" (mmixal--take (concat mmixal--letter "+") end)) mmixal--symbols))
        (t (forward-char) nil)))

(defun mmixal--fontify-term (end)
  "Fontify the term of an operand at point, which ends before END."
  (let* ((start (point))
         (face (mmixal--face-of-term end)))
    (when face
      (mmixal--face start face))))

(defun mmixal--fontify-operands (end)
  "Fontify the operands at point, before END."
  (while (and (< (point) end) (not (looking-at (concat mmixal--blank "\\|;"))))
    (mmixal--fontify-term end)))

(defun mmixal--fontify-rest (end)
  "Fontify what follows an operand field up to a semicolon or END."
  (mmixal--take (concat mmixal--blank "*") end)
  (unless (or (eolp) (eq (char-after) ?\;))
    (let ((start (point)))
      (goto-char end)
      (mmixal--face start 'font-lock-comment-face))))

(defun mmixal--fontify-operation (end)
  "Fontify the operation at point and what follows it, before END."
  (let* ((start (point))
         (word (mmixal--take (concat mmixal--letter "+") end)))
    (mmixal--face start (gethash word mmixal--operations 'font-lock-warning-face))
    (if (looking-at (concat mmixal--blank "\\|;\\|$"))
        (progn (mmixal--take (concat mmixal--blank "+") end)
               (mmixal--fontify-operands end)
               (mmixal--fontify-rest end))
      (setq start (point))
      (mmixal--take "[^;\n]+" end)
      (mmixal--face start 'font-lock-warning-face))))

(defun mmixal--fontify-statement (end)
  "Fontify the statement at point, up to a semicolon or END."
  (let* ((start (point))
         (label (mmixal--take (concat mmixal--letter "+") end)))
    (when label
      (mmixal--face start (cond ((string-match-p "\\`[0-9]H\\'" label) 'font-lock-type-face)
                                ((string-match-p "\\`[0-9]" label) 'font-lock-warning-face)
                                (t 'font-lock-function-name-face))))
    (if (and (mmixal--take (concat mmixal--blank "+") end) (looking-at mmixal--letter))
        (mmixal--fontify-operation end)
      (let ((rest (point)))
        (goto-char end)
        (mmixal--face rest (if label 'font-lock-warning-face 'font-lock-comment-face))))))

(defun mmixal--fontify (limit)
  "Fontify the lines from point to LIMIT.
As a matcher of font lock it finds nothing."
  (beginning-of-line)
  (while (< (point) limit)
    (let ((end (line-end-position)))
      (while (and (< (point) end)
                  (progn (mmixal--fontify-statement end)
                         (eq (char-after) ?\;)))
        (forward-char))
      (goto-char end)
      (forward-line)))
  (goto-char limit)
  nil)

(defvar mmixal-font-lock-keywords '((mmixal--fontify))
  "The one matcher that fontifies statements.")

(defvar mmixal-mode-syntax-table
  (let ((table (make-syntax-table)))
    (dolist (byte '(?: ?_))
      (modify-syntax-entry byte "w" table))
    (dolist (byte '(?\" ?' ?% ?* ?# ?$ ?& ?\\))
      (modify-syntax-entry byte "." table))
    table))

(defvar mmixal-mode-map
  (let ((map (make-sparse-keymap)))
    (define-key map (kbd "C-c C-c") #'mmixal-check)
    (define-key map (kbd "C-c C-l") #'mmixal-list)
    (define-key map (kbd "C-c C-r") #'mmixal-run)
    map))

(defvar-local mmixal--file nil
  "The file whose lines the messages of this compilation name.")
;; it stays when a compilation is repeated
(put 'mmixal--file 'permanent-local t)

(defun mmixal--file-of-messages ()
  "The file whose lines the messages of a compilation name.
Where another command than those of this mode was called, it is its last word."
  (or mmixal--file
      (car (last (split-string-and-unquote (or (car compilation-arguments) ""))))))

(defun mmixal--compile (&rest words)
  "Save the buffer, and compile it by WORDS and its name."
  (save-buffer)
  (let ((file (file-name-nondirectory buffer-file-name)))
    (compile (mapconcat #'shell-quote-argument (append words (list file)) " "))
    (with-current-buffer compilation-last-buffer
      (setq-local mmixal--file file))))

(defun mmixal-check ()
  "List all faults of the file."
  (interactive)
  (mmixal--compile mmixal-mmixview "check" "--gnu"))

(defun mmixal-list ()
  "List the lines of the file with their addresses and bytes."
  (interactive)
  (mmixal--compile mmixal-mmixview "list"))

(defun mmixal-run ()
  "Run the file."
  (interactive)
  (mmixal--compile mmixal-mmixware "run"))

(add-to-list 'compilation-error-regexp-alist-alist
             '(mmixal "^line \\([0-9]+\\): [0-9]+ [A-Z]" mmixal--file-of-messages 1))
(add-to-list 'compilation-error-regexp-alist 'mmixal)

;;;###autoload
(define-derived-mode mmixal-mode prog-mode "MMIXAL"
  "Major mode for MMIXAL, the assembly language of MMIX."
  (setq-local comment-start "% ")
  (setq-local comment-end "")
  (setq-local comment-start-skip "^[^\t\v\f\r A-Za-z0-9:_\n]+[ \t]*")
  (setq-local comment-use-syntax nil)
  (setq-local comment-column 32)
  (setq-local indent-line-function #'tab-to-tab-stop)
  (setq-local tab-width 8)
  (setq-local font-lock-defaults '(mmixal-font-lock-keywords t))
  (setq-local imenu-generic-expression
              `((nil ,(concat "^\\([A-Za-z:_[:nonascii:]]" mmixal--letter "*\\)" mmixal--blank) 1))))

;;;###autoload
(add-to-list 'auto-mode-alist '("\\.mms\\'" . mmixal-mode))

;; M-x eglot asks `mmixview lsp` for faults, meaning and names. The operands of an instruction, what it means, and what is wrong
;; are shown one below the other.
(defvar eglot-server-programs)
(defvar eglot-managed-mode-hook)
(defun mmixal--show-all ()
  "Show all that a server says of the place of the cursor."
  (when (and (derived-mode-p 'mmixal-mode) (fboundp 'eldoc-documentation-compose))
    (setq-local eldoc-documentation-strategy #'eldoc-documentation-compose)))
(with-eval-after-load 'eglot
  (add-to-list 'eglot-server-programs '(mmixal-mode "mmixview" "lsp"))
  (add-hook 'eglot-managed-mode-hook #'mmixal--show-all))

(provide 'mmixal-mode)

;;; mmixal-mode.el ends here

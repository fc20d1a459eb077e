;;; eglot.el --- what emacs shows of a source by eglot, as JSON -*- lexical-binding: t -*-
;; The environment names the program, the source, the place (a line and a column, counted from 0) and the file that is written.
(unless (require 'eglot nil t)
  (with-temp-file (getenv "TARGET") (insert "{\"missing\": \"eglot\"}"))
  (kill-emacs 0))
(require 'flymake)
(require 'json)

(define-derived-mode mmixal-try-mode prog-mode "MMIXAL")
(add-to-list 'eglot-server-programs (list 'mmixal-try-mode (getenv "MMIXVIEW") "lsp"))
(setq eglot-sync-connect 10 eglot-autoshutdown t)

(defun try--ask (method &rest more)
  "The answer to METHOD at the place, with MORE parameters; a refusal as its message."
  (condition-case fault
      (jsonrpc-request (eglot-current-server) method
                       (append more (eglot--TextDocumentPositionParams)))
    (error (list :message (error-message-string fault)))))

(find-file (getenv "SOURCE"))
(mmixal-try-mode)
(apply #'eglot--connect (eglot--guess-contact))
(goto-char (point-min))
(forward-line (string-to-number (getenv "LINE")))
(forward-char (string-to-number (getenv "COLUMN")))
(let ((told (list :hover (try--ask :textDocument/hover)
                  :definition (try--ask :textDocument/definition)
                  :references (try--ask :textDocument/references :context '(:includeDeclaration t))
                  :rename (try--ask :textDocument/rename :newName (getenv "NEW_NAME")))))
  (flymake-mode 1)
  (flymake-start)
  (sit-for 1)
  (accept-process-output nil 1)
  (setq told
        (plist-put told :diagnostics
                   (vconcat (mapcar (lambda (it)
                                      (list :line (1- (line-number-at-pos (flymake-diagnostic-beg it)))
                                            :text (flymake-diagnostic-text it)))
                                    (flymake-diagnostics)))))
  (with-temp-file (getenv "TARGET")
    (insert (json-serialize told))))
(kill-emacs 0)
;;; eglot.el ends here

;;; dapmode.el --- what emacs shows of a run by dap-mode, as JSON -*- lexical-binding: t -*-
;; The environment names the program, the source, the line of a breakpoint, the requests that follow, and the file that is written.
(package-initialize)
(unless (require 'dap-mode nil t)
  (with-temp-file (getenv "TARGET") (insert "{\"missing\": \"dap-mode\"}"))
  (kill-emacs 0))
(defvar treemacs-text-scale nil "What treemacs of this age does not define.")
(require 'dap-ui)
(require 'json)
(load (getenv "MMIXAL_DAP"))

(defvar try--stops 0 "How often the program was stopped.")
(defvar try--shown 0 "How often a frame was shown.")

(setq dap-auto-configure-features nil
      dap-auto-show-output nil
      dap-breakpoints-file (expand-file-name "breakpoints")
      dap-ui-variable-length 200
      mmixal-dap-program (getenv "MMIXVIEW"))
(add-hook 'dap-stopped-hook (lambda (_) (setq try--stops (1+ try--stops))))
(add-hook 'dap-stack-frame-changed-hook (lambda (_) (setq try--shown (1+ try--shown))))

(defun try--wait (holds)
  "Wait until HOLDS does, at most 20 seconds."
  (let ((turns 0))
    (while (and (not (funcall holds)) (< turns 400))
      (accept-process-output nil 0.05)
      (setq turns (1+ turns)))
    (funcall holds)))

(defun try--text (buffer)
  "The text of BUFFER."
  (with-current-buffer buffer (buffer-substring-no-properties (point-min) (point-max))))

(defun try--variables ()
  "The text of the view of variables."
  (setq dap-ui-locals-expand-depth 2)
  (dap-ui-locals--refresh)
  (try--text dap-ui--locals-buffer))

(defun try--shown ()
  "What is shown at a stop: the line of the cursor, the variables, memory, and the output."
  (let ((session (dap--cur-session)))
    (list :file (buffer-file-name)
          :line (line-number-at-pos)
          :frame (gethash "name" (dap--debug-session-active-frame session))
          :variables (try--variables)
          :memory (gethash "data" (dap-request session "readMemory" :memoryReference "0x2000000000000000" :count 64))
          :output (try--text (dap--debug-session-output-buffer session)))))

(defun try--go (command)
  "Make the request COMMAND: what is shown at the stop that follows."
  (let ((stops try--stops)
        (session (dap--cur-session)))
    (pcase command
      ("launch" (dap-debug (cdr (assoc "MMIXAL" dap-debug-template-configurations))))
      ("continue" (dap-continue session (dap--debug-session-thread-id session)))
      ("next" (dap-next session))
      ("stepIn" (dap-step-in session))
      ("stepOut" (dap-step-out session))
      ("stepBack" (mmixal-dap-step-back session))
      ("reverseContinue" (mmixal-dap-reverse-continue session)))
    (unless (try--wait (lambda ()
                         (and (> try--stops stops)
                              (dap--debug-session-active-frame (dap--cur-session)))))
      (error "No stop after %s" command))
    (append (list :command command) (try--shown))))

(let ((lsp-restart 'ignore)
      told)
  (find-file (getenv "SOURCE"))
  (goto-char (point-min))
  (forward-line (1- (string-to-number (getenv "LINE"))))
  (dap-breakpoint-add)
  (setq told (condition-case fault
                 (list :stops (vconcat (mapcar #'try--go (split-string (getenv "REQUESTS")))))
               (error (list :fault (error-message-string fault)))))
  (with-temp-file (getenv "TARGET")
    (insert (json-serialize told :null-object nil)))
  (ignore-errors (dap-disconnect (dap--cur-session))))
(kill-emacs 0)
;;; dapmode.el ends here

;;; mmixal-dap.el --- Debug MMIXAL forward and back with dap-mode -*- lexical-binding: t -*-

;;; Commentary:

;; Put this file on the load path, and (require 'mmixal-dap) into the init file.  It needs dap-mode.
;;
;; `M-x dap-debug' with "MMIXAL" debugs the file of the buffer, a source or an object, by `mmixview dap'.
;; `mmixal-dap-step-back' and `mmixal-dap-reverse-continue' go back.

;;; Code:

(require 'dap-mode)

(defcustom mmixal-dap-program "mmixview"
  "The program that is the debug adapter."
  :type 'string
  :group 'dap-mode)

(defun mmixal-dap--filled (configuration)
  "CONFIGURATION with the adapter and a program.
The program is the file of the buffer, if CONFIGURATION names none."
  (let ((filled (copy-sequence configuration)))
    (setq filled (plist-put filled :dap-server-path (list mmixal-dap-program "dap")))
    (unless (plist-get filled :program)
      (setq filled (plist-put filled :program (buffer-file-name))))
    filled))

(dap-register-debug-provider "mmixal" #'mmixal-dap--filled)
(dap-register-debug-template
 "MMIXAL"
 (list :type "mmixal" :request "launch" :name "MMIXAL" :stopOnEntry t))

(defun mmixal-dap-step-back (session)
  "Take back a step of SESSION, and all steps of a call as one."
  (interactive (list (dap--cur-session-or-die)))
  (dap--step "stepBack" session))

(defun mmixal-dap-reverse-continue (session)
  "Go back in SESSION to the last breakpoint before here, or to the start."
  (interactive (list (dap--cur-session-or-die)))
  (dap--step "reverseContinue" session))

(provide 'mmixal-dap)
;;; mmixal-dap.el ends here

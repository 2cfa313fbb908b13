;;; Opens a.v by eglot, sees the error in flymake's list, edits it away and sees it go, makes one behind a wide
;;; character and sees it where it stands, and leaves by shutdown and exit.  -*- lexical-binding: t -*-

(require 'package)
(package-initialize)
(unless (require 'eglot nil t)
  (princ "this Emacs has no eglot\n")
  (kill-emacs 77))
(require 'flymake)

(define-derived-mode fleche-mode prog-mode "Fleche")
(add-to-list 'auto-mode-alist '("\\.v\\'" . fleche-mode))
(add-to-list 'eglot-server-programs
             `(fleche-mode . (,(getenv "FLECHE_PROGRAM") "serve")))
(setq eglot-sync-connect 20
      eglot-autoreconnect nil
      eglot-events-buffer-size 0)

(defun fleche-fail (format &rest words)
  (princ (concat (apply #'format format words) "\n"))
  (kill-emacs 1))

(defun fleche-await (what test)
  "Lets the server's messages in until TEST holds."
  (let ((end (+ (float-time) 20)))
    (while (not (funcall test))
      (when (> (float-time) end)
        (fleche-fail "waited in vain for %s" what))
      (accept-process-output nil 0.05))))

(defun fleche-expect (what got wanted)
  (unless (equal got wanted)
    (fleche-fail "%s: %S, wanted %S" what got wanted)))

(find-file "a.v")
(call-interactively #'eglot)
(flymake-start)

(defun fleche-expect-error (from to)
  "Awaits the one error, between two places of the buffer."
  (fleche-await "the error" #'flymake-diagnostics)
  (let* ((found (flymake-diagnostics))
         (error (car found)))
    (fleche-expect "how many diagnostics" (length found) 1)
    (fleche-expect "its place"
                   (list (flymake-diagnostic-beg error) (flymake-diagnostic-end error))
                   (list from to))
    (fleche-expect "its kind" (flymake-diagnostic-type error) 'eglot-error)
    (unless (string-match-p "name taken" (flymake-diagnostic-text error))
      (fleche-fail "its text: %S" (flymake-diagnostic-text error)))))

(defun fleche-edit (from to text)
  "Puts TEXT in place of what stands between two places, and sends the change."
  (goto-char from)
  (delete-region from to)
  (insert text)
  (eglot--signal-textDocument/didChange)
  (flymake-start))

(fleche-expect-error 17 31)
(fleche-edit 23 24 "B")
(fleche-await "the error to go" (lambda () (null (flymake-diagnostics))))
(fleche-edit 1 1 "(* 𝒙 *) ")
(fleche-edit 31 32 "A")
(fleche-expect-error 25 39)

(let* ((server (eglot-current-server))
       (process (jsonrpc--process server)))
  (jsonrpc-request server :shutdown nil)
  (jsonrpc-notify server :exit nil)
  (fleche-await "the server to end" (lambda () (not (process-live-p process))))
  (fleche-expect "how the server ended"
                 (list (process-status process) (process-exit-status process))
                 '(exit 0)))
(set-buffer-modified-p nil)
(kill-emacs 0)

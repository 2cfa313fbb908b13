;;; The mode for Emacs: it starts the server by eglot, shows the goals at point and other ones after an edit, shows what is declared by
;;; imenu, and tells in the end that the text is checked.  -*- lexical-binding: t -*-

(require 'package)
(package-initialize)
(unless (require 'eglot nil t)
  (princ "this Emacs has no eglot\n")
  (kill-emacs 77))
(load (expand-file-name "../../editors/emacs/fleche.el" (file-name-directory load-file-name)) nil t)
(setq fleche-program (getenv "FLECHE_PROGRAM")
      eglot-sync-connect 20
      eglot-autoreconnect nil
      eglot-events-buffer-size 0)

(defun test-fail (format &rest words)
  (princ (concat (apply #'format format words) "\n"))
  (kill-emacs 1))

(defun test-await (what test)
  "Lets the server's messages in until TEST holds."
  (let ((end (+ (float-time) 20)))
    (while (not (funcall test))
      (when (> (float-time) end)
        (test-fail "waited in vain for %s" what))
      (accept-process-output nil 0.05))))

(defun test-shown ()
  "The text of the buffer of goals."
  (with-current-buffer "*goals*" (buffer-string)))

(defun test-goals (what line text)
  "Awaits TEXT as the goals at the beginning of LINE."
  (goto-char (point-min))
  (forward-line (1- line))
  (fleche-show-goals)
  (test-await what (lambda () (equal (test-shown) text))))

(defvar rule (concat (make-string 30 ?=) "\n"))

(write-region "Theorem t : True /\\ True.\nsplit.\n- exact I.\n- exact I.\nQed.\n" nil "proof.v" nil 'quiet)
(find-file "proof.v")
(unless (eq major-mode 'fleche-mode) (test-fail "the mode is %s" major-mode))
(call-interactively #'eglot)
(fleche-goals)

(test-goals "both goals" 2 (concat "Goal 1 of 2\n" rule "True\n\nGoal 2 of 2\n" rule "True\n\n"))
(test-goals "a bullet" 3 (concat rule "True\n\n1 waiting at level 1\n"))
(test-goals "the end" 5 "No proof is under way.\n")
(goto-char (point-min))
(search-forward "/\\ True")
(replace-match "/\\ (True -> True)" t t)
(test-goals "goals after an edit" 2 (concat "Goal 1 of 2\n" rule "True\n\nGoal 2 of 2\n" rule "True -> True\n\n"))
(test-await "the end of the check" (lambda () (not fleche-checking)))
(let ((names (mapcar #'car (cdr (assoc "Function" (eglot-imenu))))))
  (unless (equal names '("t")) (test-fail "what is declared: %S" names)))

(let* ((server (eglot-current-server))
       (process (jsonrpc--process server)))
  (jsonrpc-request server :shutdown nil)
  (jsonrpc-notify server :exit nil)
  (test-await "the server to end" (lambda () (not (process-live-p process)))))
(set-buffer-modified-p nil)
(kill-emacs 0)

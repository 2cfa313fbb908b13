;;; fleche.el --- Fleche in Emacs  -*- lexical-binding: t -*-

;; A mode for `.v' files whose server is Fleche, by eglot: diagnostics by flymake, the outline by imenu.  `M-x fleche-goals' shows the
;; goals at point in a window beside the text, and the mode line tells whether the text is still being checked.
;;
;;   (load "/path/to/editors/emacs/fleche.el")
;;   (setq fleche-program "/path/to/crates/fleche_main/out/fleche_main")
;;   (add-hook 'fleche-mode-hook #'eglot-ensure)

;;; Code:

(require 'eglot)
(require 'jsonrpc)
(require 'subr-x)

(defvar fleche-program "fleche_main"
  "The program of the server.")

(defvar fleche-goals-mode "After"
  "Which goals are shown: \"After\" the sentence at point, or before it, \"Prev\".")

(defvar-local fleche-checking nil
  "Whether the server still checks the text of this buffer.")

(defvar fleche-mode-syntax-table
  (let ((table (make-syntax-table)))
    (modify-syntax-entry ?\( "()1n" table)
    (modify-syntax-entry ?\) ")(4n" table)
    (modify-syntax-entry ?* ". 23" table)
    (modify-syntax-entry ?' "w" table)
    (modify-syntax-entry ?_ "w" table)
    table))

(defvar fleche-mode-map
  (let ((map (make-sparse-keymap)))
    (define-key map (kbd "C-c C-g") #'fleche-goals)
    map))

;;;###autoload
(define-derived-mode fleche-mode prog-mode "Fleche"
  "A mode for proof documents that Fleche checks."
  (setq-local comment-start "(* ")
  (setq-local comment-end " *)")
  (setq mode-name '("Fleche" (:eval (if fleche-checking " checking" ""))))
  (add-hook 'post-command-hook #'fleche--after-command nil t))

;;;###autoload
(add-to-list 'auto-mode-alist '("\\.v\\'" . fleche-mode))
(add-to-list 'eglot-server-programs
             (cons 'fleche-mode (lambda (&rest _) (list fleche-program "serve"))))

(cl-defmethod eglot-handle-notification
  (_server (_method (eql $/coq/fileProgress)) &key textDocument processing &allow-other-keys)
  "Tells whether the text is still being checked, and shows the goals anew where it no longer is."
  (when-let ((buffer (find-buffer-visiting (eglot--uri-to-path (plist-get textDocument :uri)))))
    (with-current-buffer buffer
      (setq fleche-checking (> (length processing) 0))
      (force-mode-line-update)
      (unless fleche-checking (fleche-show-goals)))))

(defun fleche--goal-text (goal title)
  "The text of GOAL under TITLE: its hypotheses, the oldest first, a rule, its type."
  (concat title
          (mapconcat (lambda (hyp)
                       (concat (string-join (append (plist-get hyp :names) nil) " ") " : " (plist-get hyp :ty)
                               (if-let ((value (plist-get hyp :def))) (concat " := " value) "") "\n"))
                     (plist-get goal :hyps) "")
          (make-string 30 ?=) "\n" (plist-get goal :ty) "\n\n"))

(defun fleche-goals-text (answer)
  "The text of ANSWER to a request for goals."
  (let* ((shown (plist-get answer :goals))
         (goals (plist-get shown :goals))
         (count (length goals))
         (level 0))
    (cond
     ((null shown) "No proof is under way.\n")
     (t (concat
         (if (zerop count) "No goal is in focus.\n" "")
         (string-join
          (cl-loop for goal across goals for place from 1
                   collect (fleche--goal-text goal (if (> count 1) (format "Goal %d of %d\n" place count) ""))))
         (mapconcat (lambda (pair)
                      (setq level (1+ level))
                      (let ((waiting (length (aref pair 1))))
                        (if (zerop waiting) "" (format "%d waiting at level %d\n" waiting level))))
                    (plist-get shown :stack) "")
         (let ((given-up (length (plist-get shown :given_up))))
           (if (zerop given-up) "" (format "%d given up\n" given-up))))))))

(defun fleche--put-goals (text)
  "Shows TEXT in the buffer of goals."
  (with-current-buffer (get-buffer-create "*goals*")
    (let ((inhibit-read-only t))
      (erase-buffer)
      (insert text)
      (goto-char (point-min)))))

(defvar fleche--asked 0
  "How many requests for goals were made: an answer to an older one is dropped.")

(defun fleche-show-goals ()
  "Shows the goals at point, where the buffer of goals is seen."
  (when-let* ((seen (get-buffer-window "*goals*" t))
              (server (eglot-current-server)))
    (let ((now (setq fleche--asked (1+ fleche--asked))))
      (eglot--signal-textDocument/didChange)
      (jsonrpc-async-request
       server :proof/goals
       (append (eglot--TextDocumentPositionParams) (list :mode fleche-goals-mode))
       :success-fn (lambda (answer)
                     (when (= now fleche--asked) (fleche--put-goals (fleche-goals-text answer))))
       :error-fn #'ignore
       :timeout-fn #'ignore))))

(defvar-local fleche--place nil
  "Where point stood, and in which text, when goals were shown last.")

(defun fleche--after-command ()
  "Shows the goals anew where point has moved or the text has changed."
  (let ((place (cons (point) (buffer-chars-modified-tick))))
    (unless (equal place fleche--place)
      (setq fleche--place place)
      (fleche-show-goals))))

(defun fleche-goals ()
  "Shows the goals at point in a window beside the text, and keeps them so."
  (interactive)
  (fleche--put-goals "")
  (display-buffer (get-buffer "*goals*") '((display-buffer-in-side-window) (side . right) (window-width . 0.4)))
  (fleche-show-goals))

(provide 'fleche)
;;; fleche.el ends here

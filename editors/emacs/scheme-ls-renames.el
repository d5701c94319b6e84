;;; scheme-ls-renames.el --- Refused renames of scheme_ls in words  -*- lexical-binding: t; -*-

;;; Commentary:

;; Where the server refuses a rename, says what would change, and keeps the places, of which \\[scheme-ls-refusal] visits one.
;; scheme-ls.el loads this file.

;;; Code:

(require 'cl-lib)
(require 'rx)
(require 'jsonrpc)
(require 'eglot)

(defvar scheme-ls--places nil "The places of the last rename that was refused: file, line and character.")

(defun scheme-ls--place (text)
  "The place that TEXT is, `URI:LINE:CHARACTER', or nil."
  (when (string-match "\\`\\(\\S-+\\):\\([0-9]+\\):\\([0-9]+\\)\\'" text)
    (let ((uri (match-string 1 text))
          (line (string-to-number (match-string 2 text)))
          (character (string-to-number (match-string 3 text))))
      (list (eglot--uri-to-path uri) line character))))

(defun scheme-ls--place-text (place)
  (pcase-let ((`(,file ,line ,character) place))
    (format "%s:%d:%d" (file-name-nondirectory file) (1+ line) (1+ character))))

(defun scheme-ls--side (text)
  "One side of a difference, TEXT, in words."
  (let ((place (scheme-ls--place text)))
    (cond (place (concat "the one bound at " (scheme-ls--place-text place)))
          ((string-prefix-p "standard " text) (concat "the " text))
          ((string-prefix-p "unbound " text) (concat "an " text))
          (t text))))

(defconst scheme-ls--changes
  '(("captured" . "the renamed name at %s would mean %s, and no more %s")
    ("shadowed" . "the name at %s would mean %s, and no more %s")
    ("quoted" . "the quoted symbol at %s would be %s, and no more %s")
    ("template" . "the macro at %s would have %s in its rules, and no more %s")
    ("export" . "the export at %s would give %s, and no more %s")
    ("structure" . "the program would have another shape at %s")
    ("broken" . "the program would have an error at %s"))
  "What differs, by the word of the server: at a place, after and before.")

(defun scheme-ls--difference (kind at from to)
  "The words of a difference of KIND at the place AT, with its sides FROM and TO."
  (let ((place (scheme-ls--place at)))
    (setq scheme-ls--places (delq nil (list place (or (scheme-ls--place to) (scheme-ls--place from)))))
    (format (cdr (assoc kind scheme-ls--changes)) (scheme-ls--place-text place) (scheme-ls--side to) (scheme-ls--side from))))

(defun scheme-ls--refused-at (text words)
  "WORDS with the place that TEXT is."
  (let ((place (scheme-ls--place text)))
    (setq scheme-ls--places (list place))
    (format words (scheme-ls--place-text place))))

(defun scheme-ls--refusal-words (message)
  "What the refusal MESSAGE of the server says in words.  Its places are kept."
  (setq scheme-ls--places nil)
  (pcase message
    ((rx string-start "refused 9 " (let kind (+ alpha)) " " (let at (+ (not space))) " from " (let from (*? anything)) " to " (let to (* anything)) string-end)
     (scheme-ls--difference kind at from to))
    ("refused 1 not bound" "no name that is bound stands here")
    ((rx string-start "refused 2 standard " (let name (* anything)) string-end) (concat name " is a standard name"))
    ("refused 3 bad name" "the new name is not one identifier")
    ((rx string-start "refused 4 unreadable " (let uri (* anything)) string-end) (concat "this does not read: " uri))
    ((rx string-start "refused 5 prefix lost " (let prefix (* anything)) string-end) (format "the new name has to begin with %s, and to go on" prefix))
    ((rx string-start "refused 6 prefix clash " (let at (* anything)) string-end) (scheme-ls--refused-at at "the name at %s would have two names"))
    ((rx string-start "refused 7 broken " (let at (+ (not space))) " " (+ digit) string-end) (scheme-ls--refused-at at "there is an error at %s"))
    ((rx string-start "refused 8 text too long " (let uri (* anything)) string-end) (concat "this would be longer than 1 MiB: " uri))
    (_ message)))

(defun scheme-ls--told-rename (rename &rest arguments)
  "Call RENAME with ARGUMENTS; a refusal is an error that says why."
  (condition-case err
      (apply rename arguments)
    (jsonrpc-error
     (user-error "Not renamed: %s" (scheme-ls--refusal-words (alist-get 'jsonrpc-error-message (cddr err)))))))

(advice-add 'eglot-rename :around #'scheme-ls--told-rename)

(defun scheme-ls-refusal (number)
  "Go to the place with this NUMBER, from 1 on, of the last rename that was refused."
  (interactive "p")
  (pcase (nth (1- number) scheme-ls--places)
    (`(,file ,line ,character)
     (find-file file)
     (let ((at (eglot--widening (eglot--lsp-position-to-point (list :line line :character character)))))
       (unless (<= (point-min) at (point-max)) (widen))
       (goto-char at)))
    (_ (user-error "The last refusal has no such place"))))

(provide 'scheme-ls-renames)
;;; scheme-ls-renames.el ends here

;;; emacs.el --- What tests/clients/emacs.sh has Emacs do  -*- lexical-binding: t; -*-

;; The steps of the file STEPS, by Eglot and the file that editors/emacs gives.  It ends with status 0 where every answer is as
;; expected.  SESSION_FILE is what tests/sessions/proxy writes down.

(require 'json)
(require 'package)
(unless (locate-library "eglot")
  (package-initialize))
(defvar here (file-name-as-directory (getenv "HERE")))
(defvar room (file-name-as-directory (getenv "ROOM")))
(add-to-list 'load-path (expand-file-name "../../editors/emacs" here))
(setq-default eglot-sync-connect 10
              eglot-autoshutdown nil
              eglot-confirm-server-initiated-edits nil
              make-backup-files nil)
(require 'subr-x)
(defvar scheme-ls-command (list (getenv "SCHEME_LS") "serve"))
(defvar said nil "What the user was told.")
(advice-add 'display-warning :override (lambda (_type text &rest _) (push text said)))
(require 'scheme-ls)
(require 'xref)
(require 'flymake)

(defvar patience 40)
(setq jsonrpc-default-request-timeout patience)

(defun fail (text &rest parts)
  (message "tests/clients/emacs.el: %s" (apply #'format text parts))
  (kill-emacs 1))

(defun expect (what got want)
  (unless (equal got want)
    (fail "%s: got %S, and not %S" what got want)))

(defun same-soon (get want)
  "What GET answers, as soon as it is WANT, or else when patience ends."
  (let ((until (+ (float-time) patience)))
    (while (and (not (equal (funcall get) want)) (< (float-time) until))
      (accept-process-output nil 0.02))
    (funcall get)))

(defvar questions
  (with-temp-buffer
    (insert-file-contents (expand-file-name (getenv "STEPS") here))
    (json-parse-buffer :object-type 'plist :array-type 'list)))

(defun write-text (name lines)
  (let ((path (expand-file-name name room)))
    (make-directory (file-name-directory path) t)
    (with-temp-file path
      (set-buffer-file-coding-system 'utf-8-unix)
      (insert (string-join lines "\n") "\n"))))

(cl-loop for (key lines) on (plist-get questions :texts) by #'cddr
         do (write-text (substring (symbol-name key) 1) lines))
(setq scheme-ls-roots (mapcar (lambda (root) (expand-file-name root room)) (plist-get questions :roots)))

;;;; Places, in characters

(defun buffer-of (file)
  (get-file-buffer (expand-file-name file room)))

(defun line-and-character (at)
  (save-excursion
    (goto-char at)
    (list (1- (line-number-at-pos)) (- at (line-beginning-position)))))

(defun place-of (file from to)
  (with-current-buffer (buffer-of file)
    (append (list file) (line-and-character from) (cdr (line-and-character to)))))

(defun point-of (line character)
  (save-excursion
    (goto-char (point-min))
    (forward-line line)
    (+ (point) character)))

(defun go (place)
  (switch-to-buffer (buffer-of (car place)))
  (goto-char (apply #'point-of (cdr place))))

(defun file-of (uri)
  (file-relative-name (url-unhex-string (string-remove-prefix "file://" uri)) (file-truename room)))

(defun region-of (file range)
  "The place of a RANGE in FILE, as Eglot finds it."
  (with-current-buffer (buffer-of file)
    (let ((region (eglot--range-region range)))
      (place-of file (car region) (cdr region)))))

(defun places (items)
  "The places of what xref lists; where each ends is told by its length."
  (mapcar
   (lambda (item)
     (let* ((location (xref-item-location item))
            (file (file-relative-name (xref-file-location-file location) room))
            (line (1- (xref-file-location-line location)))
            (column (xref-file-location-column location)))
       (list file line column (+ column (xref-match-length item)))))
   items))

(defun before (a b)
  (let ((differs (cl-find-if-not (lambda (pair) (equal (car pair) (cdr pair))) (cl-mapcar #'cons a b))))
    (and differs (< (car differs) (cdr differs)))))

;;;; What was sent

(defvar read-until 0)
(defvar opened nil)

(defun read-on ()
  "Read on in the recording: which documents the server has open."
  (with-temp-buffer
    (insert-file-contents (getenv "SESSION_FILE") nil read-until)
    (while (search-forward "\n" nil t)
      (setq read-until (+ read-until (string-bytes (buffer-substring (line-beginning-position 0) (point)))))
      (forward-line -1)
      (let* ((body (and (looking-at "<\t") (progn (forward-char 2) (json-parse-buffer :object-type 'plist))))
             (method (plist-get body :method))
             (uri (plist-get (plist-get (plist-get body :params) :textDocument) :uri)))
        (pcase method
          ("initialize" (setq opened nil))
          ("textDocument/didOpen" (push uri opened))
          ("textDocument/didClose" (setq opened (delete uri opened)))))
      (forward-line 1))))

(defun step-served (files step)
  (pcase-let* ((`(,first ,last) (or (plist-get step :numbered) '(1 0)))
               (want (sort (append files (mapcar (lambda (n) (format "%d.scm" n)) (number-sequence first last))) #'string<))
               (get (lambda () (read-on) (sort (mapcar #'file-of opened) #'string<))))
    (expect "the documents that are open" (same-soon get want) want)))

(defun step-said (text step)
  "How often TEXT was told."
  (let ((get (lambda () (cl-count-if (lambda (it) (string-search text it)) said))))
    (expect (format "how often was said: %s; of %S" text said) (same-soon get (plist-get step :times)) (plist-get step :times))))

;;;; Steps

(defun step-open (file)
  (find-file (expand-file-name file room))
  (expect (concat "the mode of " file) major-mode 'scheme-mode)
  ;; there are no commands here, behind which Emacs would do what Eglot and the arrows wait for
  (run-hooks 'post-command-hook)
  (let ((want (not (or scheme-ls--refused (string-suffix-p ".ss" file)))))
    (expect (format "whether Eglot manages %s" file) (same-soon #'eglot-managed-p want) want)))

(defun step-logged (text step)
  "What the server would log, as Eglot handles it."
  (eglot-handle-notification (eglot-current-server) 'window/logMessage :type (plist-get step :level) :message text))

(defun step-close (file)
  (with-current-buffer (buffer-of file)
    (set-buffer-modified-p nil)
    (kill-buffer))
  (accept-process-output nil 0.02)) ; what was put off is done

(defun step-write (file step)
  "Write FILE behind Emacs' back, which looks when it has the focus again."
  (write-text file (plist-get step :lines))
  (funcall after-focus-change-function))

(defun step-fill (file step)
  "Write FILE with so many bytes, the last line of them a comment."
  (let ((head (concat (string-join (plist-get step :lines) "\n") "\n;")))
    (write-text file (list (concat head (make-string (- (plist-get step :bytes) (length head) 1) ?x))))))

(defun step-grow (file step)
  (switch-to-buffer (buffer-of file))
  (goto-char (point-max))
  (insert ";" (make-string (- (plist-get step :bytes) 2) ?x) "\n")
  (send-changes))

(defun step-shrink (file)
  (switch-to-buffer (buffer-of file))
  (goto-char (point-max))
  (forward-line -1)
  (delete-region (point) (point-max)))

(defun step-many (count step)
  "Open COUNT files, 1.scm and on."
  (cl-loop for number from 1 to count
           for file = (format "%d.scm" number)
           do (write-text file (plist-get step :lines))
           do (step-open file)))

(defun step-save_as (file step)
  (switch-to-buffer (buffer-of file))
  (write-file (expand-file-name (plist-get step :to) room)))

(defun step-rename (file step)
  "Give FILE another name, and its buffer too, as Dired does."
  (switch-to-buffer (buffer-of file))
  (save-buffer)
  (accept-process-output nil 0.02) ; what was put off is done
  (let ((to (expand-file-name (plist-get step :to) room)))
    (rename-file buffer-file-name to)
    (set-visited-file-name to nil t)))

(defun managed ()
  "A buffer that Eglot manages."
  (seq-find (lambda (buffer) (with-current-buffer buffer (eglot-managed-p))) (buffer-list)))

(defun step-kill (_)
  "Kill the server, and wait for another."
  (switch-to-buffer (managed))
  (let ((server (eglot-current-server)))
    ;; Eglot starts no other for one that lives for less than three seconds
    (same-soon (lambda () (eglot--inhibit-autoreconnect server)) nil)
    (signal-process (jsonrpc--process server) 'KILL)
    (unless (same-soon (lambda () (and (eglot-managed-p) (not (eq (eglot-current-server) server)))) t)
      (fail "no other server"))))

(defun send-changes ()
  "What Eglot does when Emacs is idle, which it never is here."
  (when (eglot-managed-p) (eglot--signal-textDocument/didChange)))

(defun step-change (file step)
  (pcase-let ((`(,from-line ,from ,to-line ,to) (plist-get step :range)))
    (switch-to-buffer (buffer-of file))
    (goto-char (point-of from-line from))
    (delete-region (point) (point-of to-line to))
    (insert (plist-get step :text))
    (send-changes)))

(defvar before-keys nil "The text before keys were typed.")

(defun step-type (file step)
  "Type the keys of STEP as a person does."
  (go (cons file (plist-get step :at)))
  (setq before-keys (buffer-string))
  (undo-boundary)
  (execute-kbd-macro (vconcat (plist-get step :keys)))
  (send-changes))

(defun step-undo (file)
  (switch-to-buffer (buffer-of file))
  (undo-boundary)
  (undo-start)
  (while (not (or (equal (buffer-string) before-keys) (eq pending-undo-list t)))
    (undo-more 1))
  (send-changes)
  (expect "the text after undo" (buffer-string) before-keys))

(defun step-diagnostics (file step)
  (with-current-buffer (buffer-of file)
    (switch-to-buffer (current-buffer))
    (flymake-start)
    (same-soon
     (lambda ()
       (if (not (equal (gethash file told) eglot--versioned-identifier))
           'none-of-this-version
         (sort (mapcar
                (lambda (it)
                  (let ((told (cdr (assq 'eglot-lsp-diag (flymake-diagnostic-data it)))))
                    (append (cdr (place-of file (flymake-diagnostic-beg it) (flymake-diagnostic-end it)))
                            (list (plist-get told :severity) (plist-get told :code) (plist-get told :message)))))
                (flymake-diagnostics))
               #'before)))
     (plist-get step :are))))

(defun step-definition (place)
  (go place)
  (let ((found (places (xref-backend-definitions 'eglot (xref-backend-identifier-at-point 'eglot)))))
    (when (= 1 (length found))
      (xref-find-definitions "LSP identifier at point.")
      (expect "where point goes" (cons (file-relative-name buffer-file-name room) (line-and-character (point))) (seq-take (car found) 3)))
    found))

(defun step-references (place)
  (go place)
  (places (xref-backend-references 'eglot (xref-backend-identifier-at-point 'eglot))))

(defun step-rename_name (place step)
  "Rename what stands at PLACE, as a user does, and answer what is said where it is refused."
  (go place)
  (let ((refused (condition-case err
                     (progn (eglot-rename (plist-get step :to)) nil)
                   (error (error-message-string err)))))
    (dolist (buffer (buffer-list))
      (with-current-buffer buffer (send-changes)))
    (let ((says (plist-get step :says)))
      (unless (if says (and refused (string-search says refused)) (null refused))
        (fail "what is said of a rename: %S" refused)))))

(defun step-holds (file)
  "The text of FILE, which may stand in a buffer that nobody has seen."
  (with-current-buffer (buffer-of file)
    (split-string (string-trim-right (buffer-string) "\n") "\n")))

(defun step-listed (number)
  "Where the list of places leads that a refusal left."
  (scheme-ls-refusal number)
  (cons (file-relative-name buffer-file-name room) (line-and-character (point))))

(defun marks (key wanted)
  "The places of overlays whose KEY has a value of WANTED, each with what that stands for."
  (sort (cl-loop for overlay in (overlays-in (point-min) (point-max))
                 for what = (assq (overlay-get overlay key) wanted)
                 when what
                 collect (append (line-and-character (overlay-start overlay))
                                 (cdr (line-and-character (overlay-end overlay)))
                                 (cdr what)))
        #'before))

(defun step-highlights (place step)
  (go place)
  (let* ((file (car place))
         (answer (jsonrpc-request (eglot--current-server-or-lose) :textDocument/documentHighlight (eglot--TextDocumentPositionParams)))
         (found (mapcar (lambda (it) (append (cdr (region-of file (plist-get it :range))) (list (plist-get it :kind)))) answer))
         (want (mapcar (lambda (it) (seq-take it 3)) (plist-get step :are))))
    (eglot--highlight-piggyback #'ignore)
    (expect "what Eglot lights"
            (same-soon (lambda () (marks 'face '((eglot-highlight-symbol-face)))) want)
            want)
    found))

(defun beside ()
  "What is drawn beside lines, without what fills it."
  (sort (cl-loop for overlay in (overlays-in (point-min) (point-max))
                 for text = (and (overlay-get overlay 'scheme-ls) (overlay-get overlay 'after-string))
                 when text
                 collect (list (car (line-and-character (overlay-start overlay)))
                               (string-trim (replace-regexp-in-string "─" "" (substring-no-properties text)))))
        #'before))

(defun step-arrows (place step)
  (go place)
  (run-hooks 'post-command-hook)
  (let ((lit (plist-get step :lit)))
    (expect "what is lit"
            (same-soon (lambda () (marks 'face '((scheme-ls-binder "binder") (scheme-ls-use "use")))) lit)
            lit))
  (expect "what is beside" (beside) (plist-get step :beside)))

;;;; All of them

(defvar told (make-hash-table :test #'equal) "The versions of the lists that came last, by file.")

(cl-defmethod eglot-handle-notification :after
  (_server (_method (eql textDocument/publishDiagnostics)) &key uri version &allow-other-keys)
  (puthash (file-of uri) version told))

(defun run-step (number step)
  (cl-loop for (kind run) in '((:open step-open) (:close step-close) (:change step-change) (:type step-type)
                               (:undo step-undo) (:diagnostics step-diagnostics)
                               (:definition step-definition) (:references step-references) (:highlights step-highlights)
                               (:arrows step-arrows) (:served step-served) (:said step-said) (:write step-write)
                               (:fill step-fill) (:grow step-grow) (:shrink step-shrink) (:many step-many)
                               (:save_as step-save_as) (:kill step-kill)
                               (:rename_name step-rename_name) (:holds step-holds) (:listed step-listed)
                               (:logged step-logged) (:rename step-rename))
           for what = (plist-get step kind)
           when (plist-member step kind)
           do (let* ((name (format "step %d, %s %S" number kind what))
                     (found (condition-case err
                                (if (memq run '(step-open step-close step-undo step-definition step-references step-shrink step-kill step-holds step-listed))
                                    (funcall run what)
                                  (funcall run what step))
                              (error (fail "%s: %S" name err)))))
                (when (plist-member step :are)
                  (expect name found (plist-get step :are))))))

(cl-loop for step in (plist-get questions :steps)
         for number from 1
         do (run-step number step))

(let* ((server (with-current-buffer (managed) (eglot-current-server)))
       (process (jsonrpc--process server)))
  ;; Eglot kills the server right behind `exit'; here it first has the time to end by itself.
  (advice-add 'jsonrpc-shutdown :before
              (lambda (&rest _) (same-soon (lambda () (process-live-p process)) nil)))
  (eglot-shutdown server nil patience t)
  (expect "the status after shutdown and exit" (list (process-status process) (process-exit-status process)) '(exit 0)))
(message "tests/clients/emacs.el: %d steps passed" (length (plist-get questions :steps)))
(kill-emacs 0)

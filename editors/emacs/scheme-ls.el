;;; scheme-ls.el --- Scheme in Emacs by scheme_ls  -*- lexical-binding: t; -*-

;; Package-Requires: ((emacs "28.2") (eglot "1.9"))

;;; Commentary:

;; Tells Eglot the server, gives the server the libraries that are imported, and draws the arrows of the name at point:
;; where it is bound and where it is used.
;; Put this file into a folder of `load-path', and (require 'scheme-ls) into the init file.  README.md beside it says
;; what is to be seen.

;;; Code:

(require 'cl-lib)
(require 'seq)
(require 'subr-x)
(require 'project)
(require 'eglot)

(defgroup scheme-ls nil "Scheme by scheme_ls." :group 'eglot)

(defcustom scheme-ls-command '("scheme_ls" "serve")
  "The command that is the server, read where this file is loaded."
  :type '(repeat string))

(defcustom scheme-ls-roots nil
  "Further folders in which the files of libraries are looked for."
  :type '(repeat directory))

(defcustom scheme-ls-widest 100
  "The line beside the text stands no farther right than behind this column."
  :type 'natnum)

(defcustom scheme-ls-longest 1000
  "Ends that lie more lines apart are marked, but no line joins them."
  :type 'natnum)

(defcustom scheme-ls-largest 100000
  "Of texts of more characters no arrows are drawn: reading them takes seconds."
  :type 'natnum)

(defcustom scheme-ls-pause 0.1
  "Seconds without a change before arrows are asked for."
  :type 'number)

(defcustom scheme-ls-quiet 0.3
  "Seconds without a change before a buffer is looked at for imports."
  :type 'number)

(defconst scheme-ls--most 64 "The server refuses further documents.")
(defconst scheme-ls--limit 1048576 "The server refuses texts of more bytes.")

(defface scheme-ls-binder '((t :inherit diff-refine-added)) "A name where it is bound.")
(defface scheme-ls-use '((t :inherit lazy-highlight)) "A name where it is used.")
(defface scheme-ls-arrow '((t :inherit shadow)) "What is drawn beside the text.")

(add-to-list 'auto-mode-alist '("\\.s\\(?:cm\\|ld\\)\\'" . scheme-mode))
(add-to-list 'eglot-server-programs `(scheme-mode . (scheme-ls-server . ,scheme-ls-command)))

(defvar scheme-ls--turn 0
  "Grows with each change of what is open; older answers don't count.")

(defvar-local scheme-ls--arrows nil
  "The arrows of this document, by the lines of their ends and by their binders.")
(defvar-local scheme-ls--answered nil "The turn that the arrows are of.")
(defvar-local scheme-ls--point nil "The turn and the position drawn for.")
(defvar-local scheme-ls--overlays nil)
(defvar scheme-ls--waiting nil "The timer behind which arrows are asked for.")
(defvar scheme-ls-arrows-mode)

;;;; Places

(defun scheme-ls--uri ()
  (plist-get (eglot--TextDocumentIdentifier) :uri))

(defun scheme-ls--at (place key)
  (plist-get (plist-get place :range) key))

(defun scheme-ls--begins-p (place uri at)
  "Whether PLACE begins at the position AT of the document URI."
  (and (equal (plist-get place :uri) uri)
       (equal (scheme-ls--at place :start) at)))

(defun scheme-ls--touches-p (place uri at)
  "Whether AT is inside PLACE or at an end of it."
  (let ((start (scheme-ls--at place :start)))
    (and (equal (plist-get place :uri) uri)
         (= (plist-get start :line) (plist-get at :line))
         (<= (plist-get start :character)
             (plist-get at :character)
             (plist-get (scheme-ls--at place :end) :character)))))

(defun scheme-ls--row (place)
  (plist-get (scheme-ls--at place :start) :line))

;;;; Which arrows belong to a name

(defun scheme-ls--key (place)
  (let ((start (scheme-ls--at place :start)))
    (list (plist-get start :line) (plist-get start :character) (plist-get place :uri))))

(defun scheme-ls--index (arrows uri)
  "A table of ARROWS.
A line of the document URI has those with an end there, and the key of a binder
has the arrows that come from it."
  (let ((index (make-hash-table :test #'equal)))
    (cl-loop for n downfrom (1- (length arrows)) to 0
             for arrow = (aref arrows n)
             for from = (plist-get arrow :from)
             for to = (plist-get arrow :to)
             do (push arrow (gethash (scheme-ls--key from) index))
             (when (equal (plist-get from :uri) uri)
               (push arrow (gethash (scheme-ls--row from) index)))
             (when (equal (plist-get to :uri) uri)
               (push arrow (gethash (scheme-ls--row to) index))))
    index))

(defun scheme-ls--where (there arrows uri at)
  "The binders of ARROWS with an end that is THERE."
  (seq-uniq
   (cl-loop for arrow in arrows
            when (or (funcall there (plist-get arrow :from) uri at)
                     (funcall there (plist-get arrow :to) uri at))
            collect (plist-get arrow :from))))

(defun scheme-ls--ends (index uri at)
  "The binders of the name at AT, and their uses.
The name is the one that begins there, or else one that it is inside of or at
the end of."
  (let* ((near (gethash (plist-get at :line) index))
         (binders (or (scheme-ls--where #'scheme-ls--begins-p near uri at)
                      (scheme-ls--where #'scheme-ls--touches-p near uri at))))
    (cons binders
          (seq-uniq
           (cl-loop for binder in binders
                    append (mapcar (lambda (arrow) (plist-get arrow :to))
                                   (gethash (scheme-ls--key binder) index)))))))

;;;; Drawing

(defun scheme-ls--clear ()
  (mapc #'delete-overlay scheme-ls--overlays)
  (setq scheme-ls--overlays nil))

(defun scheme-ls--overlay (from to &rest properties)
  (let ((overlay (make-overlay from to)))
    (overlay-put overlay 'scheme-ls t)
    (while properties
      (overlay-put overlay (pop properties) (pop properties)))
    (push overlay scheme-ls--overlays)))

(defun scheme-ls--light (place face)
  (let ((range (eglot--range-region (plist-get place :range))))
    (scheme-ls--overlay (car range) (cdr range) 'face face 'priority 10)))

(defun scheme-ls--behind (text)
  "Show TEXT behind the line that point is on."
  (let ((end (line-end-position)))
    (put-text-property 0 1 'cursor t text)
    (scheme-ls--overlay end end 'after-string text)))

(defun scheme-ls--width ()
  "How many columns the line of point takes."
  (save-excursion (end-of-line) (current-column)))

(defun scheme-ls--corner (row first last ends)
  (cond ((= first last) "")
        ((= row first) "╮")
        ((= row last) "╯")
        (ends "┤")
        (t "│")))

(defun scheme-ls--draw-lines (lines first last)
  (if (<= (- last first) scheme-ls-longest)
      (scheme-ls--draw-line lines first last)
    (dolist (line lines)
      (scheme-ls--draw-line lines (car line) (car line)))))

(defun scheme-ls--draw-line (lines first last)
  "Draw the line that joins the lines FIRST to LAST beside the text.
LINES has for each line with an end its marks, and what stands behind them: ● is
where a name is bound, ◀ where it is used."
  (save-excursion
    (save-restriction
      (widen)
      (let ((column 0))
        (goto-char (point-min))
        (forward-line first)
        (cl-loop repeat (1+ (- last first))
                 do (setq column (max column (+ 3 (min (scheme-ls--width) scheme-ls-widest))))
                 (forward-line 1))
        (goto-char (point-min))
        (forward-line first)
        (cl-loop for row from first to last
                 for (marks behind) = (cdr (assq row lines))
                 do (scheme-ls--draw-row column marks (scheme-ls--corner row first last marks) behind)
                 (forward-line 1))))))

(defun scheme-ls--draw-row (column marks corner behind)
  "Draw MARKS behind the line of point, CORNER at COLUMN, and BEHIND behind it."
  (let* ((width (scheme-ls--width))
         (from (if marks (1+ width) column))
         (fill (if (and marks (not (equal corner ""))) (max 0 (- column from (length marks))) 0)))
    (when (or marks (< width column))
      (scheme-ls--behind
       (concat (make-string (- from width) ?\s)
               (propertize (concat marks (make-string fill ?─) corner behind) 'face 'scheme-ls-arrow))))))

(defun scheme-ls--name (mark place)
  (format "%s %s:%d" mark (replace-regexp-in-string ".*/" "" (plist-get place :uri)) (1+ (scheme-ls--row place))))

(defun scheme-ls--others (ends is-here)
  "The ENDS that lie in other documents, as one text."
  (let ((names (append (mapcar (apply-partially #'scheme-ls--name " ●") (seq-remove is-here (car ends)))
                       (mapcar (apply-partially #'scheme-ls--name " ◀") (seq-remove is-here (cdr ends))))))
    (concat (string-join (seq-take names 3))
            (and (nthcdr 3 names) (format " %d more" (length (nthcdr 3 names)))))))

(defun scheme-ls--draw ()
  "Draw the arrows of the name at point."
  (scheme-ls--clear)
  (let* ((uri (scheme-ls--uri))
         (at (eglot--pos-to-lsp-position))
         (ends (scheme-ls--ends scheme-ls--arrows uri at))
         (is-here (lambda (place) (equal (plist-get place :uri) uri)))
         (binders (seq-filter is-here (car ends)))
         (uses (seq-filter is-here (cdr ends)))
         (rows (sort (seq-uniq (mapcar #'scheme-ls--row (append binders uses))) #'<)))
    (dolist (place uses) (scheme-ls--light place 'scheme-ls-use))
    (dolist (place binders) (scheme-ls--light place 'scheme-ls-binder))
    (when rows
      (scheme-ls--draw-lines
       (mapcar (lambda (row)
                 (list row
                       (concat (and (memql row (mapcar #'scheme-ls--row binders)) "●")
                               (and (memql row (mapcar #'scheme-ls--row uses)) "◀"))
                       (and (= row (plist-get at :line)) (scheme-ls--others ends is-here))))
               rows)
       (car rows) (car (last rows))))))

;;;; When

(defun scheme-ls--ask (buffer)
  "Ask for the arrows of BUFFER, and draw those of the name at point."
  (when (buffer-live-p buffer)
    (with-current-buffer buffer
      (let ((server (and scheme-ls-arrows-mode (eglot-current-server)))
            (turn scheme-ls--turn))
        (when (and server (jsonrpc-running-p server) (not (equal scheme-ls--answered turn)))
          (setq scheme-ls--answered turn
                scheme-ls--arrows nil)
          (eglot--signal-textDocument/didChange)
          (jsonrpc-async-request
           server :scheme/arrows (list :textDocument (eglot--TextDocumentIdentifier))
           :success-fn
           (lambda (arrows)
             (when (and (buffer-live-p buffer) (= turn scheme-ls--turn))
               (with-current-buffer buffer
                 (setq scheme-ls--arrows (scheme-ls--index arrows (scheme-ls--uri)))
                 (scheme-ls--redraw))))
           :error-fn #'ignore))))))

(defun scheme-ls--redraw ()
  "Draw the arrows of the name at point.
Where what is known of them is old they are asked for, when nothing has changed
for a while."
  (cond ((or (not scheme-ls-arrows-mode) (> (buffer-size) scheme-ls-largest)) (scheme-ls--clear))
        ((not (equal scheme-ls--answered scheme-ls--turn))
         (when scheme-ls--waiting (cancel-timer scheme-ls--waiting))
         (setq scheme-ls--waiting (run-with-timer scheme-ls-pause nil #'scheme-ls--ask (current-buffer))))
        (scheme-ls--arrows
         (setq scheme-ls--point (cons scheme-ls--turn (point)))
         (scheme-ls--draw))))

(defun scheme-ls--after-command ()
  (unless (equal scheme-ls--point (cons scheme-ls--turn (point)))
    (scheme-ls--redraw)))

(defun scheme-ls--after-change (&rest _)
  (setq scheme-ls--turn (1+ scheme-ls--turn)))

;;;###autoload
(define-minor-mode scheme-ls-arrows-mode
  "Draws the arrows of the name at point."
  :lighter " Arrows"
  (cond (scheme-ls-arrows-mode
         (add-hook 'post-command-hook #'scheme-ls--after-command nil t)
         (add-hook 'after-change-functions #'scheme-ls--after-change nil t)
         (scheme-ls--redraw))
        (t
         (remove-hook 'post-command-hook #'scheme-ls--after-command t)
         (remove-hook 'after-change-functions #'scheme-ls--after-change t)
         (setq scheme-ls--point nil)
         (scheme-ls--clear))))

(defun scheme-ls--managed ()
  "Draw arrows where Eglot manages a Scheme buffer.
What is open is what the others are about, so all are asked for again."
  (when (derived-mode-p 'scheme-mode)
    (scheme-ls--after-change)
    (scheme-ls-arrows-mode (if (eglot-managed-p) 1 -1))
    (unless (eglot-managed-p) (scheme-ls--settle-all))))

;;;; Which libraries and texts a text names

(defun scheme-ls--skip-block ()
  "Move behind the comment between #| and |# at point.  Such comments nest."
  (let ((depth 0))
    (while (and (re-search-forward "#|\\||#" nil 'move)
                (< 0 (setq depth (if (eq (char-before) ?|) (1+ depth) (1- depth))))))))

(defun scheme-ls--skip ()
  "Move behind white space and comments."
  (while (progn (skip-chars-forward " \t\n\r\f\v")
                (looking-at ";\\|#|"))
    (if (eq (char-after) ?\;)
        (skip-chars-forward "^\n\r")
      (scheme-ls--skip-block))))

(defun scheme-ls--skip-quoted ()
  "Move behind the string or name between two of the same marks at point."
  (let ((stop (if (eq (char-after) ?|) "[\\\\|]" "[\\\\\"]")))
    (forward-char)
    (while (and (re-search-forward stop nil 'move)
                (eq (char-before) ?\\))
      (unless (eobp) (forward-char)))))

(defun scheme-ls--token ()
  "Move behind the token at point.
Answer `(' for lists and vectors, a string without its last mark, the name for
names, and else what is written."
  (let ((start (point)))
    (cond ((looking-at "#[[:alnum:]]*(") (goto-char (match-end 0)) "(")
          ((looking-at "\"") (scheme-ls--skip-quoted) (buffer-substring-no-properties start (1- (point))))
          ((looking-at "|") (scheme-ls--skip-quoted) (buffer-substring-no-properties (1+ start) (1- (point))))
          ((looking-at "#;\\|[()'`,]") (goto-char (match-end 0)) (match-string-no-properties 0))
          (t (goto-char (min (point-max) (+ start (if (looking-at "#\\\\") 3 1))))
             (skip-chars-forward "^ \t\n\r\f\v()\";|")
             (buffer-substring-no-properties start (point))))))

(defun scheme-ls--read ()
  "Move behind the datum at point, and answer it; nil where it has no end.
A list is (list PARTS..), anything else a string.  What `#;' drops isn't there."
  (let (above)
    (catch 'datum
      (while (progn (scheme-ls--skip) (not (eobp)))
        (let ((word (scheme-ls--token)) datum)
          (cond ((equal word "(") (push (list 'list) above))
                ((equal word "#;") (push 'drop above))
                ((equal word ")")
                 (setq datum (pop above))
                 (if (consp datum) (setq datum (nreverse datum)) (throw 'datum nil)))
                ((not (member word '("'" "`" ","))) (setq datum word)))
          (cond ((null datum))
                ((eq (car above) 'drop) (pop above))
                ((null above) (throw 'datum datum))
                (t (push datum (car above)))))))))

(defun scheme-ls--library (set)
  "\"a/b/c\" for the name (a b c), also inside of the import set SET.
It is nil where no file has that name, and for (scheme ..)."
  (while (and (consp set) (member (nth 1 set) '("only" "except" "prefix" "rename")) (consp (nth 2 set)))
    (setq set (nth 2 set)))
  (and (cdr-safe set)
       (not (equal (nth 1 set) "scheme"))
       (seq-every-p (lambda (part) (and (stringp part) (not (string-match-p "[/\\\\\"\0]\\|\\`\\.*\\'" part)))) (cdr set))
       (string-join (cdr set) "/")))

(defun scheme-ls--scan ()
  "What the text imports, includes and defines, as (IMPORTS INCLUDES . DEFINES).
Imports and definitions are libraries, what is included are strings.  It is nil
where one of these lists has no end.  Every list that is headed by `import',
`define-library', `include' or `include-library-declarations' counts, wherever
it stands, but those in comments, in strings and behind `#;' don't."
  (save-excursion
    (save-restriction
      (widen)
      (goto-char (point-min))
      (let ((case-fold-search nil) imports includes defines)
        (catch 'unfinished
          (while (re-search-forward "[(\";|]\\|#[|;\\\\]" nil t)
            (goto-char (match-beginning 0))
            (cond ((looking-at ";\\|#|") (scheme-ls--skip))
                  ((looking-at "#;") (forward-char 2) (scheme-ls--read))
                  ((looking-at "(")
                   (let ((start (point)) word)
                     (forward-char)
                     (scheme-ls--skip)
                     (when (looking-at "import\\|define-library\\|include")
                       (setq word (scheme-ls--token)))
                     (cond ((equal word "import")
                            (goto-char start)
                            (dolist (set (nthcdr 2 (or (scheme-ls--read) (throw 'unfinished nil))))
                              (push (scheme-ls--library set) imports)))
                           ((member word '("include" "include-library-declarations"))
                            (goto-char start)
                            (dolist (name (nthcdr 2 (or (scheme-ls--read) (throw 'unfinished nil))))
                              (when (and (stringp name) (string-prefix-p "\"" name))
                                (push (substring name 1) includes))))
                           ((equal word "define-library")
                            (push (scheme-ls--library (scheme-ls--read)) defines)))))
                  (t (scheme-ls--token))))
          (cons (delq nil (nreverse imports)) (cons (nreverse includes) (delq nil defines))))))))

;;;; What the server has open

(defclass scheme-ls-server (eglot-lsp-server)
  ((documents
    :initform (make-hash-table :test #'equal) :accessor scheme-ls--documents
    :documentation "By uri a buffer, or the file of a library as (STAMP . VERSION).")
   (libraries
    :initform nil :accessor scheme-ls--libraries
    :documentation "The uris of these files, the last that was found first.")
   (settling :initform nil :accessor scheme-ls--settling)
   (full :initform nil :accessor scheme-ls--full))
  :documentation "A server that is told no more than it takes.")

(defvar-local scheme-ls--refused nil "Why the server doesn't take this buffer.")
(defvar-local scheme-ls--known nil "The tick of the text, and what it imports and defines.")

(defun scheme-ls--tell (text &rest parts)
  (display-warning 'scheme-ls (apply #'format text parts)))

(defun scheme-ls--fits-p ()
  "Whether this buffer is one for the server: a file of Scheme."
  (and buffer-file-name
       (derived-mode-p 'scheme-mode)
       (string-match-p "\\.s\\(?:cm\\|ld\\)\\'" buffer-file-name)))

(defun scheme-ls--long-p ()
  (> (1- (position-bytes (1+ (buffer-size)))) scheme-ls--limit))

(defun scheme-ls--count-others (server)
  "How many other buffers SERVER has open."
  (cl-count-if (lambda (document) (and (bufferp document) (not (eq document (current-buffer)))))
               (hash-table-values (scheme-ls--documents server))))

(defun scheme-ls--refuse-p (server)
  "Whether SERVER can't open this buffer.  If so this is said, once."
  (let ((why (cond ((scheme-ls--long-p) "it is longer than 1 MiB")
                   ((and (scheme-ls-server-p server) (>= (scheme-ls--count-others server) scheme-ls--most))
                    (format "%d files are open" scheme-ls--most)))))
    (when (and why (not scheme-ls--refused))
      (scheme-ls--tell "%s isn't given to the server: %s" (file-name-nondirectory buffer-file-name) why))
    (setq scheme-ls--refused why)))

(defun scheme-ls--send (server method params)
  "Send SERVER a notification past the gate."
  (when (jsonrpc-running-p server)
    (jsonrpc-notify server 'scheme-ls--past (cons method params))))

(defun scheme-ls--close (server uri)
  (when (gethash uri (scheme-ls--documents server))
    (remhash uri (scheme-ls--documents server))
    (scheme-ls--send server :textDocument/didClose `(:textDocument (:uri ,uri)))))

(defun scheme-ls--let-go (buffer)
  "Have Eglot manage BUFFER no more, if the server doesn't have it."
  (when (buffer-live-p buffer)
    (with-current-buffer buffer
      (let ((server (and (eglot-managed-p) (eglot-current-server))))
        (when (and (scheme-ls-server-p server)
                   (not (eq buffer (gethash (scheme-ls--uri) (scheme-ls--documents server)))))
          (eglot--managed-mode-off))))))

(defun scheme-ls--pass-open (server uri params)
  (scheme-ls--close server uri)
  (cond ((or (not (scheme-ls--fits-p)) (scheme-ls--refuse-p server))
         (run-with-timer 0 nil #'scheme-ls--let-go (current-buffer)))
        (t (while (and (scheme-ls--libraries server) (>= (hash-table-count (scheme-ls--documents server)) scheme-ls--most))
             (scheme-ls--close server (pop (scheme-ls--libraries server))))
           (puthash uri (current-buffer) (scheme-ls--documents server))
           (scheme-ls--send server :textDocument/didOpen params)))
  (scheme-ls--settle-soon server))

(defun scheme-ls--pass-change (server uri params)
  (let ((size (cl-loop for change across (plist-get params :contentChanges)
                       sum (string-bytes (plist-get change :text)))))
    (cond ((scheme-ls--long-p)
           (scheme-ls--close server uri)
           (scheme-ls--refuse-p server)
           (run-with-timer 0 nil #'scheme-ls--let-go (current-buffer))
           (scheme-ls--settle-soon server))
          ((> size scheme-ls--limit)
           (let ((text (eglot--widening (buffer-substring-no-properties (point-min) (point-max)))))
             (scheme-ls--send server :textDocument/didChange
                              `(:textDocument ,(plist-get params :textDocument) :contentChanges [(:text ,text)]))))
          (t (scheme-ls--send server :textDocument/didChange params)))))

(cl-defmethod jsonrpc-connection-send :around ((server scheme-ls-server) &rest args &key method params &allow-other-keys)
  "Send what SERVER can take.
It would refuse too long a text or a 65th, and a message of more than 8 MiB
would end it."
  (let* ((uri (and (memq method '(:textDocument/didOpen :textDocument/didChange :textDocument/didClose :textDocument/didSave))
                   (plist-get (plist-get params :textDocument) :uri)))
         (document (and uri (gethash uri (scheme-ls--documents server)))))
    (cond ((eq method 'scheme-ls--past)
           (cl-call-next-method server :method (car params) :params (cdr params)))
          ((null uri) (cl-call-next-method))
          ((eq method :textDocument/didOpen) (scheme-ls--pass-open server uri params))
          ((not (eq document (current-buffer))) nil)
          ((eq method :textDocument/didChange) (scheme-ls--pass-change server uri params))
          ((eq method :textDocument/didClose)
           (scheme-ls--close server uri)
           (scheme-ls--settle-soon server))
          (t (cl-call-next-method)))))

(cl-defmethod eglot-handle-notification ((_server scheme-ls-server) (_method (eql 'window/logMessage)) &key type message)
  "Show what the server logs as an error."
  (when (eql type 1)
    (display-warning 'scheme-ls message :error)))

;;;; The files of libraries and of texts that are included

(cl-defstruct scheme-ls--file stamp taken imports includes)

(defvar scheme-ls--files (make-hash-table :test #'equal)
  "By path when a file was read, whether the server takes it, and what it names.")

(defun scheme-ls--find (library folder roots)
  "The file of LIBRARY, looked for upwards from FOLDER and then in ROOTS."
  (let ((name (concat library ".sld")) found)
    (while (and folder (not found))
      (let ((path (expand-file-name name folder))
            (above (file-name-directory (directory-file-name folder))))
        (when (file-regular-p path) (setq found path))
        (setq folder (and (not (equal above folder)) above))))
    (or found
        (cl-loop for root in roots
                 for path = (expand-file-name name root)
                 when (file-regular-p path) return path))))

(defun scheme-ls--included (name folder)
  "The file that the string NAME means in a text of FOLDER, if there is one.
The server joins it to the text's uri."
  (unless (string-match-p "[\\?#\0]\\|\\`//" name)
    (let ((path (cond ((string-prefix-p "file:///" name) (substring name 7))
                      ((string-match-p "\\`[[:alpha:]][-+.[:alnum:]]*:" name) nil)
                      (t name))))
      (when path
        (when (string-search "%" path)
          (setq path (decode-coding-string (url-unhex-string (encode-coding-string path 'utf-8)) 'utf-8)))
        (setq path (expand-file-name path folder))
        (and (file-regular-p path) path)))))

(defun scheme-ls--read-file (path)
  "The text of the file PATH and what it names, as (TEXT IMPORTS INCLUDES ..).
It is nil unless the server takes the file."
  (ignore-errors
    (with-temp-buffer
      (insert-file-contents path)
      (unless (or (scheme-ls--long-p) (re-search-forward "[\x3fff80-\x3fffff]" nil t))
        (cons (buffer-string) (scheme-ls--scan))))))

(defun scheme-ls--look-into (path)
  "What is known of the file PATH, read anew where it has changed."
  (let* ((attributes (file-attributes path))
         (stamp (list (file-attribute-modification-time attributes) (file-attribute-size attributes)))
         (file (gethash path scheme-ls--files)))
    (unless (and file (equal stamp (scheme-ls--file-stamp file)))
      (let ((read (and (<= (nth 1 stamp) (* 2 scheme-ls--limit)) (scheme-ls--read-file path))))
        (unless read (scheme-ls--tell "%s isn't opened: it is longer than 1 MiB, or isn't UTF-8" path))
        (setq file (make-scheme-ls--file :stamp stamp :taken (and read t) :imports (nth 1 read) :includes (nth 2 read)))
        (puthash path file scheme-ls--files)))
    file))

(defun scheme-ls--look-at ()
  "Look at this buffer for what it names, where it has changed.
Answer whether that is other than it was."
  (let ((tick (buffer-chars-modified-tick)) (old (cdr scheme-ls--known)))
    (unless (eql tick (car scheme-ls--known))
      (setq scheme-ls--known (cons tick (or (scheme-ls--scan) old)))
      (not (equal old (cdr scheme-ls--known))))))

(defun scheme-ls--beginnings (server found)
  "The buffers that SERVER has open, each as (FOLDER IMPORTS . INCLUDES).
What they define, and their uris, are put into the table FOUND."
  (let (beginnings)
    (maphash (lambda (uri document)
               (when (bufferp document)
                 (puthash uri t found)
                 (with-current-buffer document
                   (dolist (library (nthcdr 3 scheme-ls--known)) (puthash library t found))
                   (push (cons (file-name-directory buffer-file-name)
                               (unless (file-remote-p buffer-file-name)
                                 (cons (nth 1 scheme-ls--known) (nth 2 scheme-ls--known))))
                         beginnings))))
             (scheme-ls--documents server))
    (nreverse beginnings)))

(defun scheme-ls--wanted (server)
  "The files that SERVER has to have open, as (FULL (URI . PATH)..), as found.
They are those of the libraries that its buffers import, those that they
include, and what these import and include, as many as there is room for; FULL
is whether there were more.  Of each library it is one file, and none where a
buffer has the library."
  (let* ((found (make-hash-table :test #'equal))
         (queue (scheme-ls--beginnings server found))
         (room (- scheme-ls--most (length queue)))
         (project (eglot--project server))
         (roots (append (unless (eq (car-safe project) 'scheme-ls) (list (project-root project))) scheme-ls-roots))
         full wanted)
    (cl-flet ((take (path)
                (let* ((uri (eglot--path-to-uri path))
                       (file (unless (gethash uri found) (scheme-ls--look-into path))))
                  (puthash uri t found)
                  (cond ((not (and file (scheme-ls--file-taken file))))
                        ((>= (length wanted) room) (setq full t))
                        (t (push (cons uri path) wanted)
                           (setq queue (append queue (list `(,(file-name-directory path) ,(scheme-ls--file-imports file)
                                                             . ,(scheme-ls--file-includes file))))))))))
      (while queue
        (pcase-let ((`(,folder ,imports . ,includes) (pop queue)))
          (dolist (name includes)
            (when-let* ((path (scheme-ls--included name folder))) (take path)))
          (dolist (library imports)
            (when-let* ((path (and (not (gethash library found)) (scheme-ls--find library folder roots))))
              (puthash library t found)
              (take path))))))
    (cons full (nreverse wanted))))

(defun scheme-ls--open-file (server uri path)
  "Open the file PATH at SERVER as URI, or send its text where it has changed.
Answer whether anything was sent."
  (let* ((documents (scheme-ls--documents server))
         (document (gethash uri documents))
         (stamp (scheme-ls--file-stamp (gethash path scheme-ls--files)))
         (text (unless (equal stamp (car document)) (car (scheme-ls--read-file path))))
         (version (if document (1+ (cdr document)) 0)))
    (when text
      (puthash uri (cons stamp version) documents)
      (if document
          (scheme-ls--send server :textDocument/didChange
                           `(:textDocument (:uri ,uri :version ,version) :contentChanges [(:text ,text)]))
        (scheme-ls--send server :textDocument/didOpen
                         `(:textDocument (:uri ,uri :languageId "scheme" :version ,version :text ,text))))
      t)))

(defun scheme-ls--follow (server)
  "Open and close files at SERVER, so that those that are wanted are open."
  (pcase-let ((`(,full . ,wanted) (scheme-ls--wanted server)) (changed nil))
    (maphash (lambda (uri document)
               (unless (or (bufferp document) (assoc uri wanted))
                 (scheme-ls--close server uri)
                 (setq changed t)))
             (copy-hash-table (scheme-ls--documents server)))
    (pcase-dolist (`(,uri . ,path) wanted)
      (when (scheme-ls--open-file server uri path) (setq changed t)))
    (setf (scheme-ls--libraries server) (nreverse (mapcar #'car wanted)))
    (when (and full (not (scheme-ls--full server)))
      (scheme-ls--tell "not all that is imported and included is open: the server takes %d files" scheme-ls--most))
    (setf (scheme-ls--full server) full)
    (when changed
      (scheme-ls--after-change)
      (with-current-buffer (window-buffer)
        (when scheme-ls-arrows-mode (scheme-ls--redraw))))))

;;;; When

(defun scheme-ls--server ()
  "The server of this buffer, if it is one of ours."
  (unless (eglot-managed-p) (setq eglot--cached-server nil))
  (let ((server (eglot-current-server)))
    (and (scheme-ls-server-p server) server)))

(defun scheme-ls--held-p (server uri buffer)
  "Whether Eglot manages BUFFER as URI of SERVER."
  (and (buffer-live-p buffer)
       (with-current-buffer buffer
         (and (eglot-managed-p)
              (eq (scheme-ls--server) server)
              (scheme-ls--fits-p)
              (equal (scheme-ls--uri) uri)))))

(defun scheme-ls--settle-buffer (server)
  "Open this buffer at SERVER, if it isn't open and can be by now."
  (cond ((eq (gethash (scheme-ls--uri) (scheme-ls--documents server)) (current-buffer))
         (scheme-ls--look-at))
        ((eglot-managed-p) (eglot--signal-textDocument/didOpen))
        ((and scheme-ls--refused (not (scheme-ls--refuse-p server)))
         (eglot--maybe-activate-editing-mode))))

(defun scheme-ls--settle (server)
  "Bring what SERVER has open in line with the buffers and what they import.
Buffers may have other names than they had, and what was refused may fit."
  (setf (scheme-ls--settling server) nil)
  (when (jsonrpc-running-p server)
    (maphash (lambda (uri document)
               (when (and (bufferp document) (not (scheme-ls--held-p server uri document)))
                 (scheme-ls--close server uri)))
             (copy-hash-table (scheme-ls--documents server)))
    (dolist (buffer (buffer-list))
      (with-current-buffer buffer
        (when (and (scheme-ls--fits-p) (eq (scheme-ls--server) server))
          (scheme-ls--settle-buffer server))))
    (scheme-ls--follow server)))

(defun scheme-ls--settle-soon (server)
  (unless (scheme-ls--settling server)
    (setf (scheme-ls--settling server) t)
    (run-with-timer 0 nil #'scheme-ls--settle server)))

(defun scheme-ls--settle-all (&rest _)
  "Settle all servers soon: names of buffers or files may have changed."
  (maphash (lambda (_project servers)
             (mapc #'scheme-ls--settle-soon (seq-filter #'scheme-ls-server-p servers)))
           eglot--servers-by-project))

(defvar-local scheme-ls--looking nil "The timer behind which this buffer is looked at.")

(defun scheme-ls--look (buffer)
  (when (buffer-live-p buffer)
    (with-current-buffer buffer
      (let ((server (scheme-ls--server)))
        (cond ((null server))
              (scheme-ls--refused (scheme-ls--settle-soon server))
              ((scheme-ls--look-at) (scheme-ls--follow server)))))))

(defun scheme-ls--look-soon (&rest _)
  (when scheme-ls--looking (cancel-timer scheme-ls--looking))
  (setq scheme-ls--looking (run-with-timer scheme-ls-quiet nil #'scheme-ls--look (current-buffer))))

(defun scheme-ls--setup ()
  "Have Eglot manage this buffer, if it is one for the server."
  (when (scheme-ls--fits-p)
    (add-hook 'after-change-functions #'scheme-ls--look-soon nil t)
    (add-hook 'after-save-hook #'scheme-ls--settle-all nil t)
    (unless (scheme-ls--refuse-p (scheme-ls--server))
      (eglot-ensure))))

(defun scheme-ls--project (_folder)
  "The project of Scheme files that are in no other: one server has them all."
  (and (bound-and-true-p eglot-lsp-context)
       (derived-mode-p 'scheme-mode)
       '(scheme-ls)))

(cl-defmethod project-root ((_project (head scheme-ls)))
  (expand-file-name "~/"))

(add-hook 'project-find-functions #'scheme-ls--project 90)
(add-hook 'after-set-visited-file-name-hook #'scheme-ls--settle-all)
(add-function :after after-focus-change-function #'scheme-ls--settle-all)
(add-hook 'eglot-managed-mode-hook #'scheme-ls--managed)
(add-hook 'scheme-mode-hook #'scheme-ls--setup)

(require 'scheme-ls-renames)
(provide 'scheme-ls)
;;; scheme-ls.el ends here

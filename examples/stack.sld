;; A library of stacks. Its user is main.scm: open both, and ask here for the references of `push!`.
;; Records, exports and the library's name lead from one document to the other.
(define-library (stack)
  (export make-stack empty? push! pop!)
  (import (scheme base))
  (begin
    (define-record-type stack
      (wrap items)
      stack?
      (items stack-items set-stack-items!))
    (define (make-stack) (wrap '()))
    (define (empty? s) (null? (stack-items s)))
    (define (push! s item)
      (set-stack-items! s (cons item (stack-items s))))
    (define (pop! s)
      (let ((top (car (stack-items s))))
        (set-stack-items! s (cdr (stack-items s)))
        top))))

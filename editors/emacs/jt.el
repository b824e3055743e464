;;; jt.el --- Templates of jt: a mode, and the language server by eglot  -*- lexical-binding: t; -*-

;; Version: 0.1.0
;; Package-Requires: ((emacs "27.1"))

;;; Commentary:

;; (load "/path/to/editors/emacs/jt.el")
;; (add-hook 'jt-mode-hook #'eglot-ensure)
;;
;; eglot is part of Emacs 29; before, it is a package.

;;; Code:

(require 'sgml-mode)

(defgroup jt nil "Templates of jt." :group 'languages)

(defcustom jt-command '("python3" "-m" "jt" "lsp")
  "The program of the language server, with its words."
  :type '(repeat string))

(defcustom jt-context nil
  "A file with the context in JSON below the project's root, or nil.
Without one no template runs."
  :type '(choice (const nil) string))

(defcustom jt-folder nil
  "The folder of the templates below the project's root, or nil."
  :type '(choice (const nil) string))

(defconst jt--words
  (regexp-opt
   '("if" "elif" "else" "endif" "for" "endfor" "set" "endset" "with" "endwith" "filter"
     "endfilter" "autoescape" "endautoescape" "macro" "endmacro" "block" "endblock" "extends"
     "include" "import" "from" "raw" "endraw")
   'symbols)
  "The words that begin tags.")

(defconst jt--font-lock
  `(("{#\\(?:.\\|\n\\)*?#}" 0 font-lock-comment-face t)
    ("\\({[{%][-+]?\\|[-+]?%}\\|-?}}\\)" 1 font-lock-preprocessor-face t)
    (,(concat "{%[-+]?[ \t\n]*" jt--words) 1 font-lock-keyword-face t)
    ("{[{%][^}]*?|[ \t]*\\([[:alpha:]_][[:alnum:]_]*\\)" 1 font-lock-function-name-face t))
  "What is highlighted beside HTML.")

;;;###autoload
(define-derived-mode jt-mode html-mode "jt"
  "A mode for templates of jt."
  (font-lock-add-keywords nil jt--font-lock))

;;;###autoload
(add-to-list 'auto-mode-alist '("\\.\\(jinja2?\\|j2\\|jt\\)\\'" . jt-mode))
;;;###autoload
(add-to-list 'auto-mode-alist '("/templates/.*\\.\\(html\\|txt\\|xml\\)\\'" . jt-mode))

(defun jt--settings (&rest _)
  "Return the settings of the language server."
  (append (and jt-context (list :context jt-context))
          (and jt-folder (list :folder jt-folder))))

(defvar eglot-server-programs)
(with-eval-after-load 'eglot
  (add-to-list 'eglot-server-programs
               (cons 'jt-mode
                     (lambda (&rest _)
                       (append jt-command
                               (and (jt--settings)
                                    (list :initializationOptions (jt--settings))))))))

(provide 'jt)
;;; jt.el ends here

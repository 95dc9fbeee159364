(define-derived-mode vindaesk-mode prog-mode "Vindaesk")
(add-to-list 'auto-mode-alist '("\\.\\(script\\|lines\\|stack\\)\\'" . vindaesk-mode))
(with-eval-after-load 'eglot
  (add-to-list 'eglot-server-programs '((vindaesk-mode nxml-mode) . ("vindaesk-language"))))
(add-hook 'vindaesk-mode-hook 'eglot-ensure)

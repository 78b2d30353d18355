;;; mcs4-mode.el --- programs and boards of the MCS-4 bench  -*- lexical-binding: t -*-
;;; Code:

;; editors/make.mjs generates the next four word lists from the page's word lists; edits to them are lost.
(defconst mcs4-instructions '("ADD" "ADM" "BBL" "CLB" "CLC" "CMA" "CMC" "DAA" "DAC" "DCL" "FIM" "FIN" "IAC" "INC" "ISZ" "JCN" "JIN" "JMS" "JUN" "KBP" "LD" "LDM" "NOP" "RAL" "RAR" "RD0" "RD1" "RD2" "RD3" "RDM" "RDR" "SBM" "SRC" "STC" "SUB" "TCC" "TCS" "WMP" "WR0" "WR1" "WR2" "WR3" "WRM" "WRR" "XCH"))
(defconst mcs4-directives '("ORG" "DB"))
(defconst mcs4-face '("bar" "buzzer" "colour" "die" "display" "grid" "lamp" "matrix" "port" "printer" "row" "test" "title"))
(defconst mcs4-tables '("chain" "keys" "lamp" "ram" "rom"))

(defconst mcs4-name "[A-Za-z_][A-Za-z0-9_]*")

(defconst mcs4-program-words
  (let ((statement (concat "^[ \t]*\\(?:" mcs4-name "[ \t]*:\\)?[ \t]*\\("))
        (ends "\\)\\(?:[ \t,;]\\|$\\)"))
    `((,(concat statement (regexp-opt mcs4-instructions) ends) 1 font-lock-keyword-face)
      (,(concat statement (regexp-opt mcs4-directives) ends) 1 font-lock-preprocessor-face)
      (,(concat "^[ \t]*\\(" mcs4-name "\\)[ \t]*:") 1 font-lock-function-name-face)
      (,(concat "^[ \t]*\\(" mcs4-name "\\)[ \t]*=") 1 font-lock-type-face)
      (,(concat statement "[^ \t\n,;:=]+" ends) 1 font-lock-warning-face)
      ("\\_<\\(?:R\\(?:1[0-5]\\|[0-9]\\)\\|P[0-7]\\)\\_>" . font-lock-builtin-face)
      ("\\_<\\(?:0x[0-9A-F]+\\|[0-9]+\\)\\_>" . font-lock-constant-face)
      (,(concat "\\_<" mcs4-name "\\_>") . font-lock-variable-name-face)))
  "Font-lock keywords for programs.")

;;;###autoload
(define-derived-mode mcs4-mode prog-mode "MCS-4"
  "Major mode for programs of the MCS-4 bench."
  (modify-syntax-entry ?\; "<" mcs4-mode-syntax-table)
  (modify-syntax-entry ?\n ">" mcs4-mode-syntax-table)
  (modify-syntax-entry ?_ "_" mcs4-mode-syntax-table)
  (modify-syntax-entry ?= "." mcs4-mode-syntax-table)
  (modify-syntax-entry ?\" "." mcs4-mode-syntax-table)
  (setq-local comment-start "; " comment-start-skip ";+[ \t]*" font-lock-defaults '(mcs4-program-words nil t)))

(defconst mcs4-board-words
  `((,(concat "#[ \t]*" (regexp-opt mcs4-face t) "\\_>[^:\n]*:") 1 font-lock-doc-face prepend)
    (,(concat "^[ \t]*\\[+[ \t]*" (regexp-opt mcs4-tables t) "[ \t]*\\]") 1 font-lock-type-face)
    ("\\([A-Za-z0-9_-]+\\)[ \t]*=" 1 font-lock-variable-name-face)
    ("\\_<[+-]?[0-9][0-9A-Za-z_.]*" . font-lock-constant-face))
  "Font-lock keywords for board texts.")

;;;###autoload
(define-derived-mode mcs4-board-mode prog-mode "MCS-4 board"
  "Major mode for board texts of the MCS-4 bench."
  (modify-syntax-entry ?# "<" mcs4-board-mode-syntax-table)
  (modify-syntax-entry ?\n ">" mcs4-board-mode-syntax-table)
  (modify-syntax-entry ?' "\"" mcs4-board-mode-syntax-table)
  (setq-local comment-start "# " comment-start-skip "#+[ \t]*" font-lock-defaults '(mcs4-board-words)))

;;;###autoload
(add-to-list 'auto-mode-alist '("\\.\\(asm\\|4004\\)\\'" . mcs4-mode))
;;;###autoload
(add-to-list 'auto-mode-alist '("/board\\.toml\\'" . mcs4-board-mode))

(provide 'mcs4-mode)
;;; mcs4-mode.el ends here

" Syntax of DBC files.
if exists("b:current_syntax")
  finish
endif

syntax keyword dbcStatement BO_ SG_ BU_ BS_ NS_ VERSION BO_TX_BU_ EV_ ENVVAR_DATA_ EV_DATA_ CAT_DEF_ CAT_
syntax keyword dbcStatement CM_ VAL_ VAL_TABLE_ SIG_VALTYPE_ SG_MUL_VAL_ SIG_GROUP_ SIGTYPE_VALTYPE_ SIG_TYPE_REF_
syntax keyword dbcStatement SGTYPE_ SGTYPE_VAL_ BA_ BA_REL_ BA_SGTYPE_
syntax keyword dbcStatement BA_DEF_ BA_DEF_REL_ BA_DEF_SGTYPE_ BA_DEF_DEF_ BA_DEF_DEF_REL_
syntax keyword dbcType INT HEX FLOAT STRING ENUM
syntax keyword dbcNobody Vector__XXX
syntax match dbcIndicator "\<\(M\|m\d\+M\?\)\>\ze\s*:"
syntax match dbcNumber "\<\d\+\(\.\d*\)\?\([eE][-+]\?\d\+\)\?\>"
syntax match dbcComment "//.*$"
" (a quote ends a string unless a backslash is directly before it)
syntax region dbcString start=+"+ end=+\\\@1<!"+
syntax sync fromstart

highlight default link dbcStatement Statement
highlight default link dbcType Type
highlight default link dbcNobody Constant
highlight default link dbcIndicator Special
highlight default link dbcNumber Number
highlight default link dbcComment Comment
highlight default link dbcString String

let b:current_syntax = "dbc"

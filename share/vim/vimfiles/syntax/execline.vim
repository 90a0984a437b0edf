" Vim syntax file
" Language: execline
" Made by tools/make-share from the tables of programs and of their options.
if exists('b:current_syntax')
  finish
endif
let s:save = &cpoptions
set cpoptions&vim

syn match execlineProgram /\v%(^|\s)@1<=%(define|importas|multidefine|multisubstitute|elgetpositionals|export|unexport|emptyenv|envfile|withstdinas|shift|foreground|background|if|ifelse|ifte|ifthenelse|wait|cd|exec|exit|loopwhilex|forx|forstdin|forbacktickx|pipeline|backtick|redirfd|fdmove|fdclose|fdswap|piperw|heredoc|import)\ze%(\s|$)/
syn match execlineProgram /\v%(^|\s)@1<=define\ze%(\s|$)/ nextgroup=execlineOptions_define skipwhite skipempty
syn match execlineOptions_define /\v-[Cnsd]\S*/ contained nextgroup=execlineOptions_define skipwhite skipempty contains=execlineReference,execlineString
hi def link execlineOptions_define execlineOption
syn match execlineProgram /\v%(^|\s)@1<=importas\ze%(\s|$)/ nextgroup=execlineOptions_importas skipwhite skipempty
syn match execlineOptions_importas /\v-[iDuCnsd]\S*/ contained nextgroup=execlineOptions_importas skipwhite skipempty contains=execlineReference,execlineString
hi def link execlineOptions_importas execlineOption
syn match execlineProgram /\v%(^|\s)@1<=multidefine\ze%(\s|$)/ nextgroup=execlineOptions_multidefine skipwhite skipempty
syn match execlineOptions_multidefine /\v-[Cnd]\S*/ contained nextgroup=execlineOptions_multidefine skipwhite skipempty contains=execlineReference,execlineString
hi def link execlineOptions_multidefine execlineOption
syn match execlineProgram /\v%(^|\s)@1<=elgetpositionals\ze%(\s|$)/ nextgroup=execlineOptions_elgetpositionals skipwhite skipempty
syn match execlineOptions_elgetpositionals /\v-[P]\S*/ contained nextgroup=execlineOptions_elgetpositionals skipwhite skipempty contains=execlineReference,execlineString
hi def link execlineOptions_elgetpositionals execlineOption
syn match execlineProgram /\v%(^|\s)@1<=emptyenv\ze%(\s|$)/ nextgroup=execlineOptions_emptyenv skipwhite skipempty
syn match execlineOptions_emptyenv /\v-[p]\S*/ contained nextgroup=execlineOptions_emptyenv skipwhite skipempty contains=execlineReference,execlineString
hi def link execlineOptions_emptyenv execlineOption
syn match execlineProgram /\v%(^|\s)@1<=envfile\ze%(\s|$)/ nextgroup=execlineOptions_envfile skipwhite skipempty
syn match execlineOptions_envfile /\v-[iI]\S*/ contained nextgroup=execlineOptions_envfile skipwhite skipempty contains=execlineReference,execlineString
hi def link execlineOptions_envfile execlineOption
syn match execlineProgram /\v%(^|\s)@1<=withstdinas\ze%(\s|$)/ nextgroup=execlineOptions_withstdinas skipwhite skipempty
syn match execlineOptions_withstdinas /\v-[nN]\S*/ contained nextgroup=execlineOptions_withstdinas skipwhite skipempty contains=execlineReference,execlineString
hi def link execlineOptions_withstdinas execlineOption
syn match execlineProgram /\v%(^|\s)@1<=if\ze%(\s|$)/ nextgroup=execlineOptions_if skipwhite skipempty
syn match execlineOptions_if /\v-[Xntx]\S*/ contained nextgroup=execlineOptions_if skipwhite skipempty contains=execlineReference,execlineString
hi def link execlineOptions_if execlineOption
syn match execlineProgram /\v%(^|\s)@1<=ifelse\ze%(\s|$)/ nextgroup=execlineOptions_ifelse skipwhite skipempty
syn match execlineOptions_ifelse /\v-[Xn]\S*/ contained nextgroup=execlineOptions_ifelse skipwhite skipempty contains=execlineReference,execlineString
hi def link execlineOptions_ifelse execlineOption
syn match execlineProgram /\v%(^|\s)@1<=ifte\ze%(\s|$)/ nextgroup=execlineOptions_ifte skipwhite skipempty
syn match execlineOptions_ifte /\v-[Xn]\S*/ contained nextgroup=execlineOptions_ifte skipwhite skipempty contains=execlineReference,execlineString
hi def link execlineOptions_ifte execlineOption
syn match execlineProgram /\v%(^|\s)@1<=ifthenelse\ze%(\s|$)/ nextgroup=execlineOptions_ifthenelse skipwhite skipempty
syn match execlineOptions_ifthenelse /\v-[X]\S*/ contained nextgroup=execlineOptions_ifthenelse skipwhite skipempty contains=execlineReference,execlineString
hi def link execlineOptions_ifthenelse execlineOption
syn match execlineProgram /\v%(^|\s)@1<=exec\ze%(\s|$)/ nextgroup=execlineOptions_exec skipwhite skipempty
syn match execlineOptions_exec /\v-[c]\S*/ contained nextgroup=execlineOptions_exec skipwhite skipempty contains=execlineReference,execlineString
hi def link execlineOptions_exec execlineOption
syn match execlineProgram /\v%(^|\s)@1<=loopwhilex\ze%(\s|$)/ nextgroup=execlineOptions_loopwhilex skipwhite skipempty
syn match execlineOptions_loopwhilex /\v-[nx]\S*/ contained nextgroup=execlineOptions_loopwhilex skipwhite skipempty contains=execlineReference,execlineString
hi def link execlineOptions_loopwhilex execlineOption
syn match execlineProgram /\v%(^|\s)@1<=forx\ze%(\s|$)/ nextgroup=execlineOptions_forx skipwhite skipempty
syn match execlineOptions_forx /\v-[pEox]\S*/ contained nextgroup=execlineOptions_forx skipwhite skipempty contains=execlineReference,execlineString
hi def link execlineOptions_forx execlineOption
syn match execlineProgram /\v%(^|\s)@1<=forstdin\ze%(\s|$)/ nextgroup=execlineOptions_forstdin skipwhite skipempty
syn match execlineOptions_forstdin /\v-[pEoxCd]\S*/ contained nextgroup=execlineOptions_forstdin skipwhite skipempty contains=execlineReference,execlineString
hi def link execlineOptions_forstdin execlineOption
syn match execlineProgram /\v%(^|\s)@1<=forbacktickx\ze%(\s|$)/ nextgroup=execlineOptions_forbacktickx skipwhite skipempty
syn match execlineOptions_forbacktickx /\v-[pEoxCd]\S*/ contained nextgroup=execlineOptions_forbacktickx skipwhite skipempty contains=execlineReference,execlineString
hi def link execlineOptions_forbacktickx execlineOption
syn match execlineProgram /\v%(^|\s)@1<=pipeline\ze%(\s|$)/ nextgroup=execlineOptions_pipeline skipwhite skipempty
syn match execlineOptions_pipeline /\v-[rw]\S*/ contained nextgroup=execlineOptions_pipeline skipwhite skipempty contains=execlineReference,execlineString
hi def link execlineOptions_pipeline execlineOption
syn match execlineProgram /\v%(^|\s)@1<=backtick\ze%(\s|$)/ nextgroup=execlineOptions_backtick skipwhite skipempty
syn match execlineOptions_backtick /\v-[iIDnNE]\S*/ contained nextgroup=execlineOptions_backtick skipwhite skipempty contains=execlineReference,execlineString
hi def link execlineOptions_backtick execlineOption
syn match execlineProgram /\v%(^|\s)@1<=redirfd\ze%(\s|$)/ nextgroup=execlineOptions_redirfd skipwhite skipempty
syn match execlineOptions_redirfd /\v-[rwuacx]\S*/ contained nextgroup=execlineOptions_redirfd skipwhite skipempty contains=execlineReference,execlineString
hi def link execlineOptions_redirfd execlineOption
syn match execlineProgram /\v%(^|\s)@1<=fdmove\ze%(\s|$)/ nextgroup=execlineOptions_fdmove skipwhite skipempty
syn match execlineOptions_fdmove /\v-[c]\S*/ contained nextgroup=execlineOptions_fdmove skipwhite skipempty contains=execlineReference,execlineString
hi def link execlineOptions_fdmove execlineOption
syn match execlineProgram /\v%(^|\s)@1<=import\ze%(\s|$)/ nextgroup=execlineOptions_import skipwhite skipempty
syn match execlineOptions_import /\v-[iDuCnsd]\S*/ contained nextgroup=execlineOptions_import skipwhite skipempty contains=execlineReference,execlineString
hi def link execlineOptions_import execlineOption
syn match execlineBrace /\v%(^|\s)@1<=[{}]\ze%(\s|$)/
syn match execlineBackslash /\\\_./
syn match execlineReference /\v\$%(\{[^}$]*\}|\w+|[#@!?*])/
syn match execlineEscape /\v\\%(0x\x{1,2}|0\o{0,3}|[1-9]\d{0,2}|\_.)/ contained
syn region execlineString start=/"/ end=/"/ contains=execlineEscape,execlineReference
syn match execlineComment /\v%(^|\s)@1<=#.*$/ contains=execlineTodo,@Spell
syn match execlineFirstLine /\%^#!.*$/
syn keyword execlineTodo TODO FIXME XXX contained
syn sync minlines=200

hi def link execlineProgram Statement
hi def link execlineOption Type
hi def link execlineBrace Delimiter
hi def link execlineBackslash SpecialChar
hi def link execlineReference Identifier
hi def link execlineEscape SpecialChar
hi def link execlineString String
hi def link execlineComment Comment
hi def link execlineFirstLine PreProc
hi def link execlineTodo Todo

let b:current_syntax = 'execline'
let &cpoptions = s:save
unlet s:save

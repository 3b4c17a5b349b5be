" The words of the callback language of fltstack. `tools/write-words` writes the lines with keywords, from tools/words.table.

if exists('b:current_syntax')
  finish
endif

syntax case match
syntax iskeyword @,48-57,_

" of two items that match at one place the later one counts
syntax match fltError /\S/
syntax match fltWord /\h\w*/
syntax match fltError /\d\w*/
syntax match fltNumber /\<\%(0\|[1-9]\d*\)\>/
syntax match fltOperator /==\|!=\|[=<+-]/
syntax match fltComment /#.*/ contains=@Spell
syntax match fltName /\h\w*/ contained
syntax region fltBlock matchgroup=fltBrace start=/{/ end=/}/ contains=TOP fold
" a certificate may follow the text
syntax region fltCertificate start=/^fltcert [12]$/ end=/\%$/

syntax keyword fltDeclaration altitude queue
syntax keyword fltCallback pre post canceled
syntax keyword fltOperation create read write cleanup
syntax keyword fltStatement value file if else repeat return
syntax keyword fltTest irp draining
syntax keyword fltPart context old as
syntax keyword fltConstant NULL KEEP_IF_EXISTS REPLACE_IF_EXISTS
syntax keyword fltStatus WITH_CALLBACK SYNCHRONIZE NO_CALLBACK PENDING DISALLOW_FASTIO COMPLETE FINISHED_PROCESSING
      \ MORE_PROCESSING_REQUIRED
syntax keyword fltFinalStatus STATUS_SUCCESS STATUS_ACCESS_DENIED STATUS_CANCELLED STATUS_INSUFFICIENT_RESOURCES
      \ STATUS_INVALID_PARAMETER STATUS_PENDING
syntax keyword fltCall FltAllocateContext FltGetStreamContext FltGetInstanceContext FltSetStreamContext
      \ FltSetInstanceContext FltDeleteStreamContext FltDeleteInstanceContext FltCbdqInsertIo
      \ FltCbdqRemoveNextIo FltDeleteContext FltReferenceContext FltReleaseContext
      \ FltCompletePendedPreOperation FltCompletePendedPostOperation
syntax keyword fltVariable data n0 n1 n2 n3 n4 n5 n6 n7 c0 c1 c2 c3 c4 c5 c6 c7 arg o0 o1 o2 o3
syntax keyword fltDeclaration skipwhite skipempty nextgroup=fltName filter
syntax keyword fltDeclaration skipwhite skipempty nextgroup=fltLockKindNamed lock
syntax keyword fltLockKindNamed contained skipwhite skipempty nextgroup=fltName spin fast push
syntax keyword fltCallback skipwhite skipempty nextgroup=fltName deferred_pre deferred_post generic
syntax keyword fltCall skipwhite skipempty nextgroup=fltVariableNamed FltQueueDeferredIoWorkItem
syntax keyword fltVariableNamed contained skipwhite skipempty nextgroup=fltName data
syntax keyword fltCall skipwhite skipempty nextgroup=fltName FltQueueGenericWorkItem KeAcquireSpinLock KeReleaseSpinLock
      \ ExAcquireFastMutex ExReleaseFastMutex
      \ FltAcquirePushLockExclusive FltAcquirePushLockShared
      \ FltReleasePushLock

highlight default link fltBrace Delimiter
highlight default link fltCall Function
highlight default link fltCallback Structure
highlight default link fltComment Comment
highlight default link fltConstant Constant
highlight default link fltDeclaration Keyword
highlight default link fltError Error
highlight default link fltFinalStatus Constant
highlight default link fltLockKind StorageClass
highlight default link fltName PreProc
highlight default link fltNumber Number
highlight default link fltOperation Type
highlight default link fltOperator Operator
highlight default link fltPart Keyword
highlight default link fltStatement Statement
highlight default link fltStatus Constant
highlight default link fltTest Keyword
highlight default link fltVariable Identifier

highlight default link fltLockKindNamed fltLockKind
highlight default link fltVariableNamed fltVariable

" a block may begin far above what is shown
syntax sync fromstart

let b:current_syntax = 'flt'

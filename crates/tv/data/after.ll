; ModuleID = 'before.ll'
source_filename = "functions.c"
target datalayout = "e-m:e-p270:32:32-p271:32:32-p272:64:64-i64:64-i128:128-f80:128-n8:16:32:64-S128"
target triple = "x86_64-pc-linux-gnu"

; Function Attrs: nounwind uwtable
define dso_local zeroext i8 @average(i8 noundef zeroext %a, i8 noundef zeroext %b) #0 !dbg !19 {
entry:
    #dbg_value(i8 %a, !23, !DIExpression(), !25)
    #dbg_value(i8 %b, !24, !DIExpression(), !25)
  %and1 = and i8 %a, %b, !dbg !26
  %xor2 = xor i8 %a, %b, !dbg !27
  %0 = lshr i8 %xor2, 1, !dbg !28
  %add = add i8 %and1, %0, !dbg !29
  ret i8 %add, !dbg !30
}

; Function Attrs: nounwind uwtable
define dso_local zeroext i8 @without_lowest_bit(i8 noundef zeroext %x) #0 !dbg !31 {
entry:
    #dbg_value(i8 %x, !35, !DIExpression(), !36)
  %sub = add i8 %x, -1, !dbg !37
  %and1 = and i8 %sub, %x, !dbg !38
  ret i8 %and1, !dbg !39
}

; Function Attrs: nounwind uwtable
define dso_local signext i8 @absolute(i8 noundef signext %x) #0 !dbg !40 {
entry:
    #dbg_value(i8 %x, !44, !DIExpression(), !46)
    #dbg_value(i8 %x, !45, !DIExpression(DW_OP_constu, 7, DW_OP_shra, DW_OP_stack_value), !46)
  %xor = call i8 @llvm.abs.i8(i8 %x, i1 false), !dbg !47
  ret i8 %xor, !dbg !48
}

; Function Attrs: nocallback nofree nosync nounwind willreturn memory(argmem: readwrite)
declare void @llvm.lifetime.start.p0(i64 immarg, ptr nocapture) #1

; Function Attrs: nocallback nofree nosync nounwind willreturn memory(argmem: readwrite)
declare void @llvm.lifetime.end.p0(i64 immarg, ptr nocapture) #1

; Function Attrs: nounwind uwtable
define dso_local zeroext i1 @is_even(i16 noundef zeroext %x) #0 !dbg !49 {
entry:
    #dbg_value(i16 %x, !57, !DIExpression(), !58)
  %0 = and i16 %x, 1, !dbg !59
  %cmp = icmp eq i16 %0, 0, !dbg !60
  ret i1 %cmp, !dbg !61
}

; Function Attrs: nounwind uwtable
define dso_local signext i16 @smaller(i8 noundef signext %a, i8 noundef signext %b) #0 !dbg !62 {
entry:
    #dbg_value(i8 %a, !69, !DIExpression(), !71)
    #dbg_value(i8 %b, !70, !DIExpression(), !71)
  %cmp = icmp slt i8 %a, %b, !dbg !72
  br i1 %cmp, label %cond.true, label %cond.false, !dbg !73

cond.true:                                        ; preds = %entry
  br label %cond.end, !dbg !73

cond.false:                                       ; preds = %entry
  br label %cond.end, !dbg !73

cond.end:                                         ; preds = %cond.false, %cond.true
  %cond.in = phi i8 [ %a, %cond.true ], [ %b, %cond.false ]
  %conv5 = sext i8 %cond.in to i16, !dbg !73
  ret i16 %conv5, !dbg !74
}

; Function Attrs: nounwind uwtable
define dso_local i32 @mixed(i32 noundef %hash, i32 noundef %key) #0 !dbg !75 {
entry:
    #dbg_value(i32 %hash, !82, !DIExpression(), !84)
    #dbg_value(i32 %key, !83, !DIExpression(), !84)
  %mul = mul i32 %key, -862048943, !dbg !85
    #dbg_value(i32 %mul, !83, !DIExpression(), !84)
  %shl = mul i32 %key, 380141568, !dbg !86
  %shr = lshr i32 %mul, 17, !dbg !87
  %or = or disjoint i32 %shl, %shr, !dbg !88
    #dbg_value(i32 %or, !83, !DIExpression(), !84)
  %xor = xor i32 %or, %hash, !dbg !89
    #dbg_value(i32 %xor, !82, !DIExpression(), !84)
  %mul1 = mul i32 %xor, 5, !dbg !90
  %add = add i32 %mul1, -430675100, !dbg !91
  ret i32 %add, !dbg !92
}

; Function Attrs: nounwind uwtable
define dso_local i32 @count(ptr noundef %text, i8 noundef signext %c) #0 !dbg !93 {
entry:
    #dbg_value(ptr %text, !101, !DIExpression(), !104)
    #dbg_value(i8 %c, !102, !DIExpression(), !104)
    #dbg_value(i32 0, !103, !DIExpression(), !104)
  br label %for.cond, !dbg !105

for.cond:                                         ; preds = %for.inc, %entry
  %text.addr.0 = phi ptr [ %text, %entry ], [ %incdec.ptr, %for.inc ]
  %found.0 = phi i32 [ 0, %entry ], [ %found.1, %for.inc ], !dbg !104
    #dbg_value(i32 %found.0, !103, !DIExpression(), !104)
    #dbg_value(ptr %text.addr.0, !101, !DIExpression(), !104)
  %0 = load i8, ptr %text.addr.0, align 1, !dbg !106, !tbaa !109
  %tobool.not = icmp eq i8 %0, 0, !dbg !112
  br i1 %tobool.not, label %for.end, label %for.body, !dbg !112

for.body:                                         ; preds = %for.cond
  %1 = load i8, ptr %text.addr.0, align 1, !dbg !113, !tbaa !109
  %cmp = icmp eq i8 %1, %c, !dbg !115
  br i1 %cmp, label %if.then, label %if.end, !dbg !116

if.then:                                          ; preds = %for.body
  %inc = add nsw i32 %found.0, 1, !dbg !117
    #dbg_value(i32 %inc, !103, !DIExpression(), !104)
  br label %if.end, !dbg !118

if.end:                                           ; preds = %if.then, %for.body
  %found.1 = phi i32 [ %inc, %if.then ], [ %found.0, %for.body ], !dbg !104
    #dbg_value(i32 %found.1, !103, !DIExpression(), !104)
  br label %for.inc, !dbg !119

for.inc:                                          ; preds = %if.end
  %incdec.ptr = getelementptr inbounds i8, ptr %text.addr.0, i64 1, !dbg !120
    #dbg_value(ptr %incdec.ptr, !101, !DIExpression(), !104)
  br label %for.cond, !dbg !121, !llvm.loop !122

for.end:                                          ; preds = %for.cond
  ret i32 %found.0, !dbg !126
}

; Function Attrs: nounwind uwtable
define dso_local double @half(double noundef %x) #0 !dbg !127 {
entry:
    #dbg_value(double %x, !132, !DIExpression(), !133)
  %div = fmul double %x, 5.000000e-01, !dbg !134
  ret double %div, !dbg !135
}

; Function Attrs: nocallback nofree nosync nounwind speculatable willreturn memory(none)
declare i8 @llvm.abs.i8(i8, i1 immarg) #2

attributes #0 = { nounwind uwtable "min-legal-vector-width"="0" "no-trapping-math"="true" "stack-protector-buffer-size"="8" "target-cpu"="x86-64" "target-features"="+cmov,+cx8,+fxsr,+mmx,+sse,+sse2,+x87" "tune-cpu"="generic" }
attributes #1 = { nocallback nofree nosync nounwind willreturn memory(argmem: readwrite) }
attributes #2 = { nocallback nofree nosync nounwind speculatable willreturn memory(none) }

!llvm.dbg.cu = !{!0}
!llvm.module.flags = !{!12, !13, !14, !15, !16, !17}
!llvm.ident = !{!18}

!0 = distinct !DICompileUnit(language: DW_LANG_C11, file: !1, producer: "Debian clang version 19.1.7 (3~deb12u1)", isOptimized: true, runtimeVersion: 0, emissionKind: FullDebug, retainedTypes: !2, splitDebugInlining: false, nameTableKind: None)
!1 = !DIFile(filename: "functions.c", directory: "/src", checksumkind: CSK_MD5, checksum: "ef72b64b6b1f1b20bfdd16b85ec80541")
!2 = !{!3, !8}
!3 = !DIDerivedType(tag: DW_TAG_typedef, name: "uint8_t", file: !4, line: 24, baseType: !5)
!4 = !DIFile(filename: "/usr/include/x86_64-linux-gnu/bits/stdint-uintn.h", directory: "", checksumkind: CSK_MD5, checksum: "2bf2ae53c58c01b1a1b9383b5195125c")
!5 = !DIDerivedType(tag: DW_TAG_typedef, name: "__uint8_t", file: !6, line: 38, baseType: !7)
!6 = !DIFile(filename: "/usr/include/x86_64-linux-gnu/bits/types.h", directory: "", checksumkind: CSK_MD5, checksum: "d108b5f93a74c50510d7d9bc0ab36df9")
!7 = !DIBasicType(name: "unsigned char", size: 8, encoding: DW_ATE_unsigned_char)
!8 = !DIDerivedType(tag: DW_TAG_typedef, name: "int8_t", file: !9, line: 24, baseType: !10)
!9 = !DIFile(filename: "/usr/include/x86_64-linux-gnu/bits/stdint-intn.h", directory: "", checksumkind: CSK_MD5, checksum: "55bcbdc3159515ebd91d351a70d505f4")
!10 = !DIDerivedType(tag: DW_TAG_typedef, name: "__int8_t", file: !6, line: 37, baseType: !11)
!11 = !DIBasicType(name: "signed char", size: 8, encoding: DW_ATE_signed_char)
!12 = !{i32 7, !"Dwarf Version", i32 5}
!13 = !{i32 2, !"Debug Info Version", i32 3}
!14 = !{i32 1, !"wchar_size", i32 4}
!15 = !{i32 8, !"PIC Level", i32 2}
!16 = !{i32 7, !"PIE Level", i32 2}
!17 = !{i32 7, !"uwtable", i32 2}
!18 = !{!"Debian clang version 19.1.7 (3~deb12u1)"}
!19 = distinct !DISubprogram(name: "average", scope: !1, file: !1, line: 3, type: !20, scopeLine: 3, flags: DIFlagPrototyped | DIFlagAllCallsDescribed, spFlags: DISPFlagDefinition | DISPFlagOptimized, unit: !0, retainedNodes: !22)
!20 = !DISubroutineType(types: !21)
!21 = !{!3, !3, !3}
!22 = !{!23, !24}
!23 = !DILocalVariable(name: "a", arg: 1, scope: !19, file: !1, line: 3, type: !3)
!24 = !DILocalVariable(name: "b", arg: 2, scope: !19, file: !1, line: 3, type: !3)
!25 = !DILocation(line: 0, scope: !19)
!26 = !DILocation(line: 3, column: 61, scope: !19)
!27 = !DILocation(line: 3, column: 72, scope: !19)
!28 = !DILocation(line: 3, column: 77, scope: !19)
!29 = !DILocation(line: 3, column: 66, scope: !19)
!30 = !DILocation(line: 3, column: 41, scope: !19)
!31 = distinct !DISubprogram(name: "without_lowest_bit", scope: !1, file: !1, line: 5, type: !32, scopeLine: 5, flags: DIFlagPrototyped | DIFlagAllCallsDescribed, spFlags: DISPFlagDefinition | DISPFlagOptimized, unit: !0, retainedNodes: !34)
!32 = !DISubroutineType(types: !33)
!33 = !{!3, !3}
!34 = !{!35}
!35 = !DILocalVariable(name: "x", arg: 1, scope: !31, file: !1, line: 5, type: !3)
!36 = !DILocation(line: 0, scope: !31)
!37 = !DILocation(line: 5, column: 64, scope: !31)
!38 = !DILocation(line: 5, column: 50, scope: !31)
!39 = !DILocation(line: 5, column: 41, scope: !31)
!40 = distinct !DISubprogram(name: "absolute", scope: !1, file: !1, line: 7, type: !41, scopeLine: 7, flags: DIFlagPrototyped | DIFlagAllCallsDescribed, spFlags: DISPFlagDefinition | DISPFlagOptimized, unit: !0, retainedNodes: !43)
!41 = !DISubroutineType(types: !42)
!42 = !{!8, !8}
!43 = !{!44, !45}
!44 = !DILocalVariable(name: "x", arg: 1, scope: !40, file: !1, line: 7, type: !8)
!45 = !DILocalVariable(name: "sign", scope: !40, file: !1, line: 7, type: !8)
!46 = !DILocation(line: 0, scope: !40)
!47 = !DILocation(line: 7, column: 78, scope: !40)
!48 = !DILocation(line: 7, column: 51, scope: !40)
!49 = distinct !DISubprogram(name: "is_even", scope: !1, file: !1, line: 9, type: !50, scopeLine: 9, flags: DIFlagPrototyped | DIFlagAllCallsDescribed, spFlags: DISPFlagDefinition | DISPFlagOptimized, unit: !0, retainedNodes: !56)
!50 = !DISubroutineType(types: !51)
!51 = !{!52, !53}
!52 = !DIBasicType(name: "_Bool", size: 8, encoding: DW_ATE_boolean)
!53 = !DIDerivedType(tag: DW_TAG_typedef, name: "uint16_t", file: !4, line: 25, baseType: !54)
!54 = !DIDerivedType(tag: DW_TAG_typedef, name: "__uint16_t", file: !6, line: 40, baseType: !55)
!55 = !DIBasicType(name: "unsigned short", size: 16, encoding: DW_ATE_unsigned)
!56 = !{!57}
!57 = !DILocalVariable(name: "x", arg: 1, scope: !49, file: !1, line: 9, type: !53)
!58 = !DILocation(line: 0, scope: !49)
!59 = !DILocation(line: 9, column: 38, scope: !49)
!60 = !DILocation(line: 9, column: 42, scope: !49)
!61 = !DILocation(line: 9, column: 29, scope: !49)
!62 = distinct !DISubprogram(name: "smaller", scope: !1, file: !1, line: 11, type: !63, scopeLine: 11, flags: DIFlagPrototyped | DIFlagAllCallsDescribed, spFlags: DISPFlagDefinition | DISPFlagOptimized, unit: !0, retainedNodes: !68)
!63 = !DISubroutineType(types: !64)
!64 = !{!65, !8, !8}
!65 = !DIDerivedType(tag: DW_TAG_typedef, name: "int16_t", file: !9, line: 25, baseType: !66)
!66 = !DIDerivedType(tag: DW_TAG_typedef, name: "__int16_t", file: !6, line: 39, baseType: !67)
!67 = !DIBasicType(name: "short", size: 16, encoding: DW_ATE_signed)
!68 = !{!69, !70}
!69 = !DILocalVariable(name: "a", arg: 1, scope: !62, file: !1, line: 11, type: !8)
!70 = !DILocalVariable(name: "b", arg: 2, scope: !62, file: !1, line: 11, type: !8)
!71 = !DILocation(line: 0, scope: !62)
!72 = !DILocation(line: 11, column: 48, scope: !62)
!73 = !DILocation(line: 11, column: 46, scope: !62)
!74 = !DILocation(line: 11, column: 39, scope: !62)
!75 = distinct !DISubprogram(name: "mixed", scope: !1, file: !1, line: 13, type: !76, scopeLine: 13, flags: DIFlagPrototyped | DIFlagAllCallsDescribed, spFlags: DISPFlagDefinition | DISPFlagOptimized, unit: !0, retainedNodes: !81)
!76 = !DISubroutineType(types: !77)
!77 = !{!78, !78, !78}
!78 = !DIDerivedType(tag: DW_TAG_typedef, name: "uint32_t", file: !4, line: 26, baseType: !79)
!79 = !DIDerivedType(tag: DW_TAG_typedef, name: "__uint32_t", file: !6, line: 42, baseType: !80)
!80 = !DIBasicType(name: "unsigned int", size: 32, encoding: DW_ATE_unsigned)
!81 = !{!82, !83}
!82 = !DILocalVariable(name: "hash", arg: 1, scope: !75, file: !1, line: 13, type: !78)
!83 = !DILocalVariable(name: "key", arg: 2, scope: !75, file: !1, line: 13, type: !78)
!84 = !DILocation(line: 0, scope: !75)
!85 = !DILocation(line: 14, column: 7, scope: !75)
!86 = !DILocation(line: 15, column: 13, scope: !75)
!87 = !DILocation(line: 15, column: 25, scope: !75)
!88 = !DILocation(line: 15, column: 19, scope: !75)
!89 = !DILocation(line: 16, column: 8, scope: !75)
!90 = !DILocation(line: 17, column: 15, scope: !75)
!91 = !DILocation(line: 17, column: 19, scope: !75)
!92 = !DILocation(line: 17, column: 3, scope: !75)
!93 = distinct !DISubprogram(name: "count", scope: !1, file: !1, line: 20, type: !94, scopeLine: 20, flags: DIFlagPrototyped | DIFlagAllCallsDescribed, spFlags: DISPFlagDefinition | DISPFlagOptimized, unit: !0, retainedNodes: !100)
!94 = !DISubroutineType(types: !95)
!95 = !{!96, !97, !99}
!96 = !DIBasicType(name: "int", size: 32, encoding: DW_ATE_signed)
!97 = !DIDerivedType(tag: DW_TAG_pointer_type, baseType: !98, size: 64)
!98 = !DIDerivedType(tag: DW_TAG_const_type, baseType: !99)
!99 = !DIBasicType(name: "char", size: 8, encoding: DW_ATE_signed_char)
!100 = !{!101, !102, !103}
!101 = !DILocalVariable(name: "text", arg: 1, scope: !93, file: !1, line: 20, type: !97)
!102 = !DILocalVariable(name: "c", arg: 2, scope: !93, file: !1, line: 20, type: !99)
!103 = !DILocalVariable(name: "found", scope: !93, file: !1, line: 21, type: !96)
!104 = !DILocation(line: 0, scope: !93)
!105 = !DILocation(line: 22, column: 3, scope: !93)
!106 = !DILocation(line: 22, column: 10, scope: !107)
!107 = distinct !DILexicalBlock(scope: !108, file: !1, line: 22, column: 3)
!108 = distinct !DILexicalBlock(scope: !93, file: !1, line: 22, column: 3)
!109 = !{!110, !110, i64 0}
!110 = !{!"omnipotent char", !111, i64 0}
!111 = !{!"Simple C/C++ TBAA"}
!112 = !DILocation(line: 22, column: 3, scope: !108)
!113 = !DILocation(line: 23, column: 9, scope: !114)
!114 = distinct !DILexicalBlock(scope: !107, file: !1, line: 23, column: 9)
!115 = !DILocation(line: 23, column: 15, scope: !114)
!116 = !DILocation(line: 23, column: 9, scope: !107)
!117 = !DILocation(line: 24, column: 12, scope: !114)
!118 = !DILocation(line: 24, column: 7, scope: !114)
!119 = !DILocation(line: 23, column: 18, scope: !114)
!120 = !DILocation(line: 22, column: 21, scope: !107)
!121 = !DILocation(line: 22, column: 3, scope: !107)
!122 = distinct !{!122, !112, !123, !124, !125}
!123 = !DILocation(line: 24, column: 12, scope: !108)
!124 = !{!"llvm.loop.mustprogress"}
!125 = !{!"llvm.loop.unroll.disable"}
!126 = !DILocation(line: 25, column: 3, scope: !93)
!127 = distinct !DISubprogram(name: "half", scope: !1, file: !1, line: 28, type: !128, scopeLine: 28, flags: DIFlagPrototyped | DIFlagAllCallsDescribed, spFlags: DISPFlagDefinition | DISPFlagOptimized, unit: !0, retainedNodes: !131)
!128 = !DISubroutineType(types: !129)
!129 = !{!130, !130}
!130 = !DIBasicType(name: "double", size: 64, encoding: DW_ATE_float)
!131 = !{!132}
!132 = !DILocalVariable(name: "x", arg: 1, scope: !127, file: !1, line: 28, type: !130)
!133 = !DILocation(line: 0, scope: !127)
!134 = !DILocation(line: 28, column: 34, scope: !127)
!135 = !DILocation(line: 28, column: 25, scope: !127)

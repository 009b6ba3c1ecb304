; ModuleID = 'raw.ll'
source_filename = "functions.c"
target datalayout = "e-m:e-p270:32:32-p271:32:32-p272:64:64-i64:64-i128:128-f80:128-n8:16:32:64-S128"
target triple = "x86_64-pc-linux-gnu"

; Function Attrs: nounwind uwtable
define dso_local zeroext i8 @average(i8 noundef zeroext %a, i8 noundef zeroext %b) #0 !dbg !19 {
entry:
    #dbg_value(i8 %a, !23, !DIExpression(), !25)
    #dbg_value(i8 %b, !24, !DIExpression(), !25)
  %conv = zext i8 %a to i32, !dbg !26
  %conv1 = zext i8 %b to i32, !dbg !27
  %and = and i32 %conv, %conv1, !dbg !28
  %conv2 = zext i8 %a to i32, !dbg !29
  %conv3 = zext i8 %b to i32, !dbg !30
  %xor = xor i32 %conv2, %conv3, !dbg !31
  %shr = ashr i32 %xor, 1, !dbg !32
  %add = add nsw i32 %and, %shr, !dbg !33
  %conv4 = trunc i32 %add to i8, !dbg !34
  ret i8 %conv4, !dbg !35
}

; Function Attrs: nounwind uwtable
define dso_local zeroext i8 @without_lowest_bit(i8 noundef zeroext %x) #0 !dbg !36 {
entry:
    #dbg_value(i8 %x, !40, !DIExpression(), !41)
  %conv = zext i8 %x to i32, !dbg !42
  %conv1 = zext i8 %x to i32, !dbg !43
  %sub = sub nsw i32 %conv1, 1, !dbg !44
  %conv2 = trunc i32 %sub to i8, !dbg !45
  %conv3 = zext i8 %conv2 to i32, !dbg !45
  %and = and i32 %conv, %conv3, !dbg !46
  %conv4 = trunc i32 %and to i8, !dbg !42
  ret i8 %conv4, !dbg !47
}

; Function Attrs: nounwind uwtable
define dso_local signext i8 @absolute(i8 noundef signext %x) #0 !dbg !48 {
entry:
    #dbg_value(i8 %x, !52, !DIExpression(), !54)
  %conv = sext i8 %x to i32, !dbg !55
  %shr = ashr i32 %conv, 7, !dbg !56
  %conv1 = trunc i32 %shr to i8, !dbg !55
    #dbg_value(i8 %conv1, !53, !DIExpression(), !54)
  %conv2 = sext i8 %x to i32, !dbg !57
  %conv3 = sext i8 %conv1 to i32, !dbg !58
  %add = add nsw i32 %conv2, %conv3, !dbg !59
  %conv4 = sext i8 %conv1 to i32, !dbg !60
  %xor = xor i32 %add, %conv4, !dbg !61
  %conv5 = trunc i32 %xor to i8, !dbg !62
  ret i8 %conv5, !dbg !63
}

; Function Attrs: nocallback nofree nosync nounwind willreturn memory(argmem: readwrite)
declare void @llvm.lifetime.start.p0(i64 immarg, ptr nocapture) #1

; Function Attrs: nocallback nofree nosync nounwind willreturn memory(argmem: readwrite)
declare void @llvm.lifetime.end.p0(i64 immarg, ptr nocapture) #1

; Function Attrs: nounwind uwtable
define dso_local zeroext i1 @is_even(i16 noundef zeroext %x) #0 !dbg !64 {
entry:
    #dbg_value(i16 %x, !72, !DIExpression(), !73)
  %conv = zext i16 %x to i32, !dbg !74
  %rem = srem i32 %conv, 2, !dbg !75
  %cmp = icmp eq i32 %rem, 0, !dbg !76
  ret i1 %cmp, !dbg !77
}

; Function Attrs: nounwind uwtable
define dso_local signext i16 @smaller(i8 noundef signext %a, i8 noundef signext %b) #0 !dbg !78 {
entry:
    #dbg_value(i8 %a, !85, !DIExpression(), !87)
    #dbg_value(i8 %b, !86, !DIExpression(), !87)
  %conv = sext i8 %a to i32, !dbg !88
  %conv1 = sext i8 %b to i32, !dbg !89
  %cmp = icmp slt i32 %conv, %conv1, !dbg !90
  br i1 %cmp, label %cond.true, label %cond.false, !dbg !88

cond.true:                                        ; preds = %entry
  %conv3 = sext i8 %a to i32, !dbg !91
  br label %cond.end, !dbg !88

cond.false:                                       ; preds = %entry
  %conv4 = sext i8 %b to i32, !dbg !92
  br label %cond.end, !dbg !88

cond.end:                                         ; preds = %cond.false, %cond.true
  %cond = phi i32 [ %conv3, %cond.true ], [ %conv4, %cond.false ], !dbg !88
  %conv5 = trunc i32 %cond to i16, !dbg !88
  ret i16 %conv5, !dbg !93
}

; Function Attrs: nounwind uwtable
define dso_local i32 @mixed(i32 noundef %hash, i32 noundef %key) #0 !dbg !94 {
entry:
    #dbg_value(i32 %hash, !101, !DIExpression(), !103)
    #dbg_value(i32 %key, !102, !DIExpression(), !103)
  %mul = mul i32 %key, -862048943, !dbg !104
    #dbg_value(i32 %mul, !102, !DIExpression(), !103)
  %shl = shl i32 %mul, 15, !dbg !105
  %shr = lshr i32 %mul, 17, !dbg !106
  %or = or i32 %shl, %shr, !dbg !107
    #dbg_value(i32 %or, !102, !DIExpression(), !103)
  %xor = xor i32 %hash, %or, !dbg !108
    #dbg_value(i32 %xor, !101, !DIExpression(), !103)
  %mul1 = mul i32 %xor, 5, !dbg !109
  %add = add i32 %mul1, -430675100, !dbg !110
  ret i32 %add, !dbg !111
}

; Function Attrs: nounwind uwtable
define dso_local i32 @count(ptr noundef %text, i8 noundef signext %c) #0 !dbg !112 {
entry:
    #dbg_value(ptr %text, !120, !DIExpression(), !123)
    #dbg_value(i8 %c, !121, !DIExpression(), !123)
    #dbg_value(i32 0, !122, !DIExpression(), !123)
  br label %for.cond, !dbg !124

for.cond:                                         ; preds = %for.inc, %entry
  %text.addr.0 = phi ptr [ %text, %entry ], [ %incdec.ptr, %for.inc ]
  %found.0 = phi i32 [ 0, %entry ], [ %found.1, %for.inc ], !dbg !123
    #dbg_value(i32 %found.0, !122, !DIExpression(), !123)
    #dbg_value(ptr %text.addr.0, !120, !DIExpression(), !123)
  %0 = load i8, ptr %text.addr.0, align 1, !dbg !125, !tbaa !128
  %tobool = icmp ne i8 %0, 0, !dbg !131
  br i1 %tobool, label %for.body, label %for.end, !dbg !131

for.body:                                         ; preds = %for.cond
  %1 = load i8, ptr %text.addr.0, align 1, !dbg !132, !tbaa !128
  %conv = sext i8 %1 to i32, !dbg !132
  %conv1 = sext i8 %c to i32, !dbg !134
  %cmp = icmp eq i32 %conv, %conv1, !dbg !135
  br i1 %cmp, label %if.then, label %if.end, !dbg !136

if.then:                                          ; preds = %for.body
  %inc = add nsw i32 %found.0, 1, !dbg !137
    #dbg_value(i32 %inc, !122, !DIExpression(), !123)
  br label %if.end, !dbg !138

if.end:                                           ; preds = %if.then, %for.body
  %found.1 = phi i32 [ %inc, %if.then ], [ %found.0, %for.body ], !dbg !123
    #dbg_value(i32 %found.1, !122, !DIExpression(), !123)
  br label %for.inc, !dbg !134

for.inc:                                          ; preds = %if.end
  %incdec.ptr = getelementptr inbounds i8, ptr %text.addr.0, i32 1, !dbg !139
    #dbg_value(ptr %incdec.ptr, !120, !DIExpression(), !123)
  br label %for.cond, !dbg !140, !llvm.loop !141

for.end:                                          ; preds = %for.cond
  ret i32 %found.0, !dbg !145
}

; Function Attrs: nounwind uwtable
define dso_local double @half(double noundef %x) #0 !dbg !146 {
entry:
    #dbg_value(double %x, !151, !DIExpression(), !152)
  %div = fdiv double %x, 2.000000e+00, !dbg !153
  ret double %div, !dbg !154
}

attributes #0 = { nounwind uwtable "min-legal-vector-width"="0" "no-trapping-math"="true" "stack-protector-buffer-size"="8" "target-cpu"="x86-64" "target-features"="+cmov,+cx8,+fxsr,+mmx,+sse,+sse2,+x87" "tune-cpu"="generic" }
attributes #1 = { nocallback nofree nosync nounwind willreturn memory(argmem: readwrite) }

!llvm.dbg.cu = !{!0}
!llvm.module.flags = !{!12, !13, !14, !15, !16, !17}
!llvm.ident = !{!18}

!0 = distinct !DICompileUnit(language: DW_LANG_C11, file: !1, producer: "Debian clang version 19.1.7 (3~deb12u1)", isOptimized: true, runtimeVersion: 0, emissionKind: FullDebug, retainedTypes: !2, splitDebugInlining: false, nameTableKind: None)
!1 = !DIFile(filename: "functions.c", directory: "/src", checksumkind: CSK_MD5, checksum: "ef72b64b6b1f1b20bfdd16b85ec80541")
!2 = !{!3, !8}
!3 = !DIDerivedType(tag: DW_TAG_typedef, name: "uint8_t", file: !4, line: 24, baseType: !5)
!4 = !DIFile(filename: "/usr/include/x86_64-linux-gnu/bits/stdint-uintn.h", directory: "", checksumkind: CSK_MD5, checksum: "2bf2ae53c58c01b1a1b9383b5195125c")
!5 = !DIDerivedType(tag: DW_TAG_typedef, name: "__uint8_t", file: !6, line: 38, baseType: !7)
!6 = !DIFile(filename: "/usr/include/x86_64-linux-gnu/bits/types.h", directory: "", checksumkind: CSK_MD5, checksum: "d108b5f93a74c50510d7d9bc0ab36df9")
!7 = !DIBasicType(name: "unsigned char", size: 8, encoding: DW_ATE_unsigned_char)
!8 = !DIDerivedType(tag: DW_TAG_typedef, name: "int8_t", file: !9, line: 24, baseType: !10)
!9 = !DIFile(filename: "/usr/include/x86_64-linux-gnu/bits/stdint-intn.h", directory: "", checksumkind: CSK_MD5, checksum: "55bcbdc3159515ebd91d351a70d505f4")
!10 = !DIDerivedType(tag: DW_TAG_typedef, name: "__int8_t", file: !6, line: 37, baseType: !11)
!11 = !DIBasicType(name: "signed char", size: 8, encoding: DW_ATE_signed_char)
!12 = !{i32 7, !"Dwarf Version", i32 5}
!13 = !{i32 2, !"Debug Info Version", i32 3}
!14 = !{i32 1, !"wchar_size", i32 4}
!15 = !{i32 8, !"PIC Level", i32 2}
!16 = !{i32 7, !"PIE Level", i32 2}
!17 = !{i32 7, !"uwtable", i32 2}
!18 = !{!"Debian clang version 19.1.7 (3~deb12u1)"}
!19 = distinct !DISubprogram(name: "average", scope: !1, file: !1, line: 3, type: !20, scopeLine: 3, flags: DIFlagPrototyped | DIFlagAllCallsDescribed, spFlags: DISPFlagDefinition | DISPFlagOptimized, unit: !0, retainedNodes: !22)
!20 = !DISubroutineType(types: !21)
!21 = !{!3, !3, !3}
!22 = !{!23, !24}
!23 = !DILocalVariable(name: "a", arg: 1, scope: !19, file: !1, line: 3, type: !3)
!24 = !DILocalVariable(name: "b", arg: 2, scope: !19, file: !1, line: 3, type: !3)
!25 = !DILocation(line: 0, scope: !19)
!26 = !DILocation(line: 3, column: 59, scope: !19)
!27 = !DILocation(line: 3, column: 63, scope: !19)
!28 = !DILocation(line: 3, column: 61, scope: !19)
!29 = !DILocation(line: 3, column: 70, scope: !19)
!30 = !DILocation(line: 3, column: 74, scope: !19)
!31 = !DILocation(line: 3, column: 72, scope: !19)
!32 = !DILocation(line: 3, column: 77, scope: !19)
!33 = !DILocation(line: 3, column: 66, scope: !19)
!34 = !DILocation(line: 3, column: 48, scope: !19)
!35 = !DILocation(line: 3, column: 41, scope: !19)
!36 = distinct !DISubprogram(name: "without_lowest_bit", scope: !1, file: !1, line: 5, type: !37, scopeLine: 5, flags: DIFlagPrototyped | DIFlagAllCallsDescribed, spFlags: DISPFlagDefinition | DISPFlagOptimized, unit: !0, retainedNodes: !39)
!37 = !DISubroutineType(types: !38)
!38 = !{!3, !3}
!39 = !{!40}
!40 = !DILocalVariable(name: "x", arg: 1, scope: !36, file: !1, line: 5, type: !3)
!41 = !DILocation(line: 0, scope: !36)
!42 = !DILocation(line: 5, column: 48, scope: !36)
!43 = !DILocation(line: 5, column: 62, scope: !36)
!44 = !DILocation(line: 5, column: 64, scope: !36)
!45 = !DILocation(line: 5, column: 52, scope: !36)
!46 = !DILocation(line: 5, column: 50, scope: !36)
!47 = !DILocation(line: 5, column: 41, scope: !36)
!48 = distinct !DISubprogram(name: "absolute", scope: !1, file: !1, line: 7, type: !49, scopeLine: 7, flags: DIFlagPrototyped | DIFlagAllCallsDescribed, spFlags: DISPFlagDefinition | DISPFlagOptimized, unit: !0, retainedNodes: !51)
!49 = !DISubroutineType(types: !50)
!50 = !{!8, !8}
!51 = !{!52, !53}
!52 = !DILocalVariable(name: "x", arg: 1, scope: !48, file: !1, line: 7, type: !8)
!53 = !DILocalVariable(name: "sign", scope: !48, file: !1, line: 7, type: !8)
!54 = !DILocation(line: 0, scope: !48)
!55 = !DILocation(line: 7, column: 43, scope: !48)
!56 = !DILocation(line: 7, column: 45, scope: !48)
!57 = !DILocation(line: 7, column: 68, scope: !48)
!58 = !DILocation(line: 7, column: 72, scope: !48)
!59 = !DILocation(line: 7, column: 70, scope: !48)
!60 = !DILocation(line: 7, column: 80, scope: !48)
!61 = !DILocation(line: 7, column: 78, scope: !48)
!62 = !DILocation(line: 7, column: 58, scope: !48)
!63 = !DILocation(line: 7, column: 51, scope: !48)
!64 = distinct !DISubprogram(name: "is_even", scope: !1, file: !1, line: 9, type: !65, scopeLine: 9, flags: DIFlagPrototyped | DIFlagAllCallsDescribed, spFlags: DISPFlagDefinition | DISPFlagOptimized, unit: !0, retainedNodes: !71)
!65 = !DISubroutineType(types: !66)
!66 = !{!67, !68}
!67 = !DIBasicType(name: "_Bool", size: 8, encoding: DW_ATE_boolean)
!68 = !DIDerivedType(tag: DW_TAG_typedef, name: "uint16_t", file: !4, line: 25, baseType: !69)
!69 = !DIDerivedType(tag: DW_TAG_typedef, name: "__uint16_t", file: !6, line: 40, baseType: !70)
!70 = !DIBasicType(name: "unsigned short", size: 16, encoding: DW_ATE_unsigned)
!71 = !{!72}
!72 = !DILocalVariable(name: "x", arg: 1, scope: !64, file: !1, line: 9, type: !68)
!73 = !DILocation(line: 0, scope: !64)
!74 = !DILocation(line: 9, column: 36, scope: !64)
!75 = !DILocation(line: 9, column: 38, scope: !64)
!76 = !DILocation(line: 9, column: 42, scope: !64)
!77 = !DILocation(line: 9, column: 29, scope: !64)
!78 = distinct !DISubprogram(name: "smaller", scope: !1, file: !1, line: 11, type: !79, scopeLine: 11, flags: DIFlagPrototyped | DIFlagAllCallsDescribed, spFlags: DISPFlagDefinition | DISPFlagOptimized, unit: !0, retainedNodes: !84)
!79 = !DISubroutineType(types: !80)
!80 = !{!81, !8, !8}
!81 = !DIDerivedType(tag: DW_TAG_typedef, name: "int16_t", file: !9, line: 25, baseType: !82)
!82 = !DIDerivedType(tag: DW_TAG_typedef, name: "__int16_t", file: !6, line: 39, baseType: !83)
!83 = !DIBasicType(name: "short", size: 16, encoding: DW_ATE_signed)
!84 = !{!85, !86}
!85 = !DILocalVariable(name: "a", arg: 1, scope: !78, file: !1, line: 11, type: !8)
!86 = !DILocalVariable(name: "b", arg: 2, scope: !78, file: !1, line: 11, type: !8)
!87 = !DILocation(line: 0, scope: !78)
!88 = !DILocation(line: 11, column: 46, scope: !78)
!89 = !DILocation(line: 11, column: 50, scope: !78)
!90 = !DILocation(line: 11, column: 48, scope: !78)
!91 = !DILocation(line: 11, column: 54, scope: !78)
!92 = !DILocation(line: 11, column: 58, scope: !78)
!93 = !DILocation(line: 11, column: 39, scope: !78)
!94 = distinct !DISubprogram(name: "mixed", scope: !1, file: !1, line: 13, type: !95, scopeLine: 13, flags: DIFlagPrototyped | DIFlagAllCallsDescribed, spFlags: DISPFlagDefinition | DISPFlagOptimized, unit: !0, retainedNodes: !100)
!95 = !DISubroutineType(types: !96)
!96 = !{!97, !97, !97}
!97 = !DIDerivedType(tag: DW_TAG_typedef, name: "uint32_t", file: !4, line: 26, baseType: !98)
!98 = !DIDerivedType(tag: DW_TAG_typedef, name: "__uint32_t", file: !6, line: 42, baseType: !99)
!99 = !DIBasicType(name: "unsigned int", size: 32, encoding: DW_ATE_unsigned)
!100 = !{!101, !102}
!101 = !DILocalVariable(name: "hash", arg: 1, scope: !94, file: !1, line: 13, type: !97)
!102 = !DILocalVariable(name: "key", arg: 2, scope: !94, file: !1, line: 13, type: !97)
!103 = !DILocation(line: 0, scope: !94)
!104 = !DILocation(line: 14, column: 7, scope: !94)
!105 = !DILocation(line: 15, column: 13, scope: !94)
!106 = !DILocation(line: 15, column: 25, scope: !94)
!107 = !DILocation(line: 15, column: 19, scope: !94)
!108 = !DILocation(line: 16, column: 8, scope: !94)
!109 = !DILocation(line: 17, column: 15, scope: !94)
!110 = !DILocation(line: 17, column: 19, scope: !94)
!111 = !DILocation(line: 17, column: 3, scope: !94)
!112 = distinct !DISubprogram(name: "count", scope: !1, file: !1, line: 20, type: !113, scopeLine: 20, flags: DIFlagPrototyped | DIFlagAllCallsDescribed, spFlags: DISPFlagDefinition | DISPFlagOptimized, unit: !0, retainedNodes: !119)
!113 = !DISubroutineType(types: !114)
!114 = !{!115, !116, !118}
!115 = !DIBasicType(name: "int", size: 32, encoding: DW_ATE_signed)
!116 = !DIDerivedType(tag: DW_TAG_pointer_type, baseType: !117, size: 64)
!117 = !DIDerivedType(tag: DW_TAG_const_type, baseType: !118)
!118 = !DIBasicType(name: "char", size: 8, encoding: DW_ATE_signed_char)
!119 = !{!120, !121, !122}
!120 = !DILocalVariable(name: "text", arg: 1, scope: !112, file: !1, line: 20, type: !116)
!121 = !DILocalVariable(name: "c", arg: 2, scope: !112, file: !1, line: 20, type: !118)
!122 = !DILocalVariable(name: "found", scope: !112, file: !1, line: 21, type: !115)
!123 = !DILocation(line: 0, scope: !112)
!124 = !DILocation(line: 22, column: 3, scope: !112)
!125 = !DILocation(line: 22, column: 10, scope: !126)
!126 = distinct !DILexicalBlock(scope: !127, file: !1, line: 22, column: 3)
!127 = distinct !DILexicalBlock(scope: !112, file: !1, line: 22, column: 3)
!128 = !{!129, !129, i64 0}
!129 = !{!"omnipotent char", !130, i64 0}
!130 = !{!"Simple C/C++ TBAA"}
!131 = !DILocation(line: 22, column: 3, scope: !127)
!132 = !DILocation(line: 23, column: 9, scope: !133)
!133 = distinct !DILexicalBlock(scope: !126, file: !1, line: 23, column: 9)
!134 = !DILocation(line: 23, column: 18, scope: !133)
!135 = !DILocation(line: 23, column: 15, scope: !133)
!136 = !DILocation(line: 23, column: 9, scope: !126)
!137 = !DILocation(line: 24, column: 12, scope: !133)
!138 = !DILocation(line: 24, column: 7, scope: !133)
!139 = !DILocation(line: 22, column: 21, scope: !126)
!140 = !DILocation(line: 22, column: 3, scope: !126)
!141 = distinct !{!141, !131, !142, !143, !144}
!142 = !DILocation(line: 24, column: 12, scope: !127)
!143 = !{!"llvm.loop.mustprogress"}
!144 = !{!"llvm.loop.unroll.disable"}
!145 = !DILocation(line: 25, column: 3, scope: !112)
!146 = distinct !DISubprogram(name: "half", scope: !1, file: !1, line: 28, type: !147, scopeLine: 28, flags: DIFlagPrototyped | DIFlagAllCallsDescribed, spFlags: DISPFlagDefinition | DISPFlagOptimized, unit: !0, retainedNodes: !150)
!147 = !DISubroutineType(types: !148)
!148 = !{!149, !149}
!149 = !DIBasicType(name: "double", size: 64, encoding: DW_ATE_float)
!150 = !{!151}
!151 = !DILocalVariable(name: "x", arg: 1, scope: !146, file: !1, line: 28, type: !149)
!152 = !DILocation(line: 0, scope: !146)
!153 = !DILocation(line: 28, column: 34, scope: !146)
!154 = !DILocation(line: 28, column: 25, scope: !146)

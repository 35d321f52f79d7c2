
; The one instruction of x86-64 that the library's code names, PSHUFB, for other processors: byte I of the result is 0 if byte I of the places has its
; highest bit, and otherwise the byte that its four lowest bits say.
define internal <16 x i8> @shuffle_bytes(<16 x i8> %bytes, <16 x i8> %places) {
begin:
  br label %next
next:
  %number = phi i32 [ 0, %begin ], [ %following, %next ]
  %made = phi <16 x i8> [ zeroinitializer, %begin ], [ %more, %next ]
  %place = extractelement <16 x i8> %places, i32 %number
  %low = and i8 %place, 15
  %found = extractelement <16 x i8> %bytes, i8 %low
  %none = icmp slt i8 %place, 0
  %byte = select i1 %none, i8 0, i8 %found
  %more = insertelement <16 x i8> %made, i8 %byte, i32 %number
  %following = add i32 %number, 1
  %ends = icmp eq i32 %following, 16
  br i1 %ends, label %end, label %next
end:
  ret <16 x i8> %more
}

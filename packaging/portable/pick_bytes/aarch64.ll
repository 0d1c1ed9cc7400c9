
define internal <16 x i8> @pick_bytes(<16 x i8> %from, <16 x i8> %at) alwaysinline nounwind {
  %place = and <16 x i8> %at, splat (i8 -113)
  %picked = call <16 x i8> @llvm.aarch64.neon.tbl1.v16i8(<16 x i8> %from, <16 x i8> %place)
  ret <16 x i8> %picked
}

declare <16 x i8> @llvm.aarch64.neon.tbl1.v16i8(<16 x i8>, <16 x i8>)

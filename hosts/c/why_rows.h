/* Calls and the texts that say why, as the model of tests/why has them. tests/why/run --store writes this file. */
static const uint32_t why_table[][4] = {
    {0u, 0u, 0u, 0u}, /* 0 bool */
    {1u, 0u, 0u, 0u}, /* 1 AbstractInt */
    {2u, 0u, 0u, 0u}, /* 2 AbstractFloat */
    {3u, 0u, 0u, 0u}, /* 3 i32 */
    {4u, 0u, 0u, 0u}, /* 4 u32 */
    {5u, 0u, 0u, 0u}, /* 5 f32 */
    {6u, 0u, 0u, 0u}, /* 6 f16 */
    {7u, 2u, 0u, 5u}, /* 7 vec2<f32> */
    {7u, 3u, 0u, 5u}, /* 8 vec3<f32> */
    {7u, 4u, 0u, 5u}, /* 9 vec4<f32> */
    {7u, 2u, 0u, 1u}, /* 10 vec2<AbstractInt> */
    {7u, 3u, 0u, 2u}, /* 11 vec3<AbstractFloat> */
    {7u, 4u, 0u, 3u}, /* 12 vec4<i32> */
    {7u, 4u, 0u, 4u}, /* 13 vec4<u32> */
    {7u, 2u, 0u, 4u}, /* 14 vec2<u32> */
    {7u, 2u, 0u, 0u}, /* 15 vec2<bool> */
    {8u, 2u, 2u, 5u}, /* 16 mat2x2<f32> */
    {8u, 4u, 3u, 5u}, /* 17 mat4x3<f32> */
    {8u, 2u, 4u, 5u}, /* 18 mat2x4<f32> */
    {8u, 3u, 3u, 2u}, /* 19 mat3x3<AbstractFloat> */
    {10u, 0u, 0u, 5u}, /* 20 array<f32> */
    {9u, 4u, 0u, 5u}, /* 21 array<f32,4> */
    {9u, 4294967295u, 0u, 2u}, /* 22 array<AbstractFloat,4294967295> */
    {11u, 0u, 0u, 3u}, /* 23 atomic<i32> */
    {11u, 0u, 0u, 4u}, /* 24 atomic<u32> */
    {9u, 2u, 0u, 24u}, /* 25 array<atomic<u32>,2> */
    {16u, 0u, 0u, 3u}, /* 26 __atomic_compare_exchange_result<i32> */
    {14u, 0u, 0u, 6u}, /* 27 __frexp_result_f16 */
    {15u, 0u, 0u, 11u}, /* 28 __modf_result_vec3_abstract */
    {12u, 4u, 2u, 23u}, /* 29 ptr<storage,atomic<i32>,read_write> */
    {12u, 2u, 2u, 24u}, /* 30 ptr<workgroup,atomic<u32>,read_write> */
    {12u, 4u, 0u, 24u}, /* 31 ptr<storage,atomic<u32>,read> */
    {12u, 2u, 1u, 23u}, /* 32 ptr<workgroup,atomic<i32>,write> */
    {12u, 1u, 2u, 24u}, /* 33 ptr<private,atomic<u32>,read_write> */
    {12u, 4u, 2u, 4u}, /* 34 ptr<storage,u32,read_write> */
    {12u, 4u, 0u, 20u}, /* 35 ptr<storage,array<f32>,read> */
    {12u, 4u, 2u, 20u}, /* 36 ptr<storage,array<f32>,read_write> */
    {12u, 4u, 1u, 20u}, /* 37 ptr<storage,array<f32>,write> */
    {12u, 2u, 2u, 20u}, /* 38 ptr<workgroup,array<f32>,read_write> */
    {12u, 4u, 0u, 21u}, /* 39 ptr<storage,array<f32,4>,read> */
    {12u, 2u, 2u, 7u}, /* 40 ptr<workgroup,vec2<f32>,read_write> */
    {12u, 2u, 0u, 7u}, /* 41 ptr<workgroup,vec2<f32>,read> */
    {12u, 2u, 2u, 25u}, /* 42 ptr<workgroup,array<atomic<u32>,2>,read_write> */
    {13u, 0u, 2u, 5u}, /* 43 ref<function,f32,read_write> */
    {13u, 5u, 0u, 5u}, /* 44 ref<handle,f32,read> */
};

/* What is asked, operator, name, profile, operands; what the call itself answers, accepted or 8; the text's length and FNV-1a sum, and the text where it has few lines. */
static const struct why_row why_rows[] = {
    /* !(vec2<bool>) */
    {UNARY_WHY, 0, "", 0, 1, {15}, 0, 29, 0x7d42053cu,
     "(vec2<bool>): chosen, rank 0\n"},
    /* !(__frexp_result_f16) */
    {UNARY_WHY, 0, "", 0, 1, {27}, 8, 178, 0x58d63d6cu,
     "(bool): operand 1 is __frexp_result_f16\n" "(vec2<bool>): operand 1 is __frexp_result_f16\n" "(vec3<bool>): operand 1 is __frexp_result_f16\n" "(vec4<bool>): operand 1 is __frexp_result_f16\n"},
    /* -(vec4<i32>) */
    {UNARY_WHY, 1, "", 0, 1, {12}, 0, 28, 0x4dce773au,
     "(vec4<i32>): chosen, rank 0\n"},
    /* -(__frexp_result_f16) */
    {UNARY_WHY, 1, "", 0, 1, {27}, 8, 942, 0xbcbd95d2u,
     NULL},
    /* ~(vec4<i32>) */
    {UNARY_WHY, 2, "", 0, 1, {12}, 0, 28, 0x4dce773au,
     "(vec4<i32>): chosen, rank 0\n"},
    /* ~(__frexp_result_f16) */
    {UNARY_WHY, 2, "", 0, 1, {27}, 8, 554, 0x86898582u,
     NULL},
    /* ||(bool, bool) */
    {BINARY_WHY, 0, "", 0, 2, {0, 0}, 0, 32, 0x2fa6fc45u,
     "(bool, bool): chosen, ranks 0 0\n"},
    /* ||(bool, __frexp_result_f16) */
    {BINARY_WHY, 0, "", 0, 2, {0, 27}, 8, 46, 0xf9f3037cu,
     "(bool, bool): operand 2 is __frexp_result_f16\n"},
    /* &&(bool, bool) */
    {BINARY_WHY, 1, "", 0, 2, {0, 0}, 0, 32, 0x2fa6fc45u,
     "(bool, bool): chosen, ranks 0 0\n"},
    /* &&(bool, __frexp_result_f16) */
    {BINARY_WHY, 1, "", 0, 2, {0, 27}, 8, 46, 0xf9f3037cu,
     "(bool, bool): operand 2 is __frexp_result_f16\n"},
    /* +(vec2<u32>, u32) */
    {BINARY_WHY, 2, "", 0, 2, {14, 4}, 0, 36, 0x39c39e53u,
     "(vec2<u32>, u32): chosen, ranks 0 0\n"},
    /* +(vec2<u32>, __frexp_result_f16) */
    {BINARY_WHY, 2, "", 0, 2, {14, 27}, 8, 4467, 0xa204e6f0u,
     NULL},
    /* -(vec2<u32>, u32) */
    {BINARY_WHY, 3, "", 0, 2, {14, 4}, 0, 36, 0x39c39e53u,
     "(vec2<u32>, u32): chosen, ranks 0 0\n"},
    /* -(vec2<u32>, __frexp_result_f16) */
    {BINARY_WHY, 3, "", 0, 2, {14, 27}, 8, 4467, 0xa204e6f0u,
     NULL},
    /* *(u32, vec2<u32>) */
    {BINARY_WHY, 4, "", 0, 2, {4, 14}, 0, 36, 0x919ff047u,
     "(u32, vec2<u32>): chosen, ranks 0 0\n"},
    /* *(u32, __frexp_result_f16) */
    {BINARY_WHY, 4, "", 0, 2, {4, 27}, 8, 11817, 0xfad11814u,
     NULL},
    /* /(vec3<AbstractFloat>, AbstractFloat) */
    {BINARY_WHY, 5, "", 0, 2, {11, 2}, 0, 56, 0x2b4d4dc6u,
     "(vec3<AbstractFloat>, AbstractFloat): chosen, ranks 0 0\n"},
    /* /(vec3<AbstractFloat>, __frexp_result_f16) */
    {BINARY_WHY, 5, "", 0, 2, {11, 27}, 8, 3486, 0x6f568a2fu,
     NULL},
    /* %(vec3<AbstractFloat>, AbstractFloat) */
    {BINARY_WHY, 6, "", 0, 2, {11, 2}, 0, 56, 0x2b4d4dc6u,
     "(vec3<AbstractFloat>, AbstractFloat): chosen, ranks 0 0\n"},
    /* %(vec3<AbstractFloat>, __frexp_result_f16) */
    {BINARY_WHY, 6, "", 0, 2, {11, 27}, 8, 3486, 0x6f568a2fu,
     NULL},
    /* ==(u32, u32) */
    {BINARY_WHY, 7, "", 0, 2, {4, 4}, 0, 30, 0x7e634635u,
     "(u32, u32): chosen, ranks 0 0\n"},
    /* ==(u32, __frexp_result_f16) */
    {BINARY_WHY, 7, "", 0, 2, {4, 27}, 8, 1231, 0x30bb6e4fu,
     NULL},
    /* !=(u32, u32) */
    {BINARY_WHY, 8, "", 0, 2, {4, 4}, 0, 30, 0x7e634635u,
     "(u32, u32): chosen, ranks 0 0\n"},
    /* !=(u32, __frexp_result_f16) */
    {BINARY_WHY, 8, "", 0, 2, {4, 27}, 8, 1231, 0x30bb6e4fu,
     NULL},
    /* <(vec2<u32>, vec2<u32>) */
    {BINARY_WHY, 9, "", 0, 2, {14, 14}, 0, 42, 0xef91b70du,
     "(vec2<u32>, vec2<u32>): chosen, ranks 0 0\n"},
    /* <(vec2<u32>, __frexp_result_f16) */
    {BINARY_WHY, 9, "", 0, 2, {14, 27}, 8, 1209, 0xf450d4ffu,
     NULL},
    /* <=(vec2<u32>, vec2<u32>) */
    {BINARY_WHY, 10, "", 0, 2, {14, 14}, 0, 42, 0xef91b70du,
     "(vec2<u32>, vec2<u32>): chosen, ranks 0 0\n"},
    /* <=(vec2<u32>, __frexp_result_f16) */
    {BINARY_WHY, 10, "", 0, 2, {14, 27}, 8, 1209, 0xf450d4ffu,
     NULL},
    /* >(vec2<u32>, vec2<u32>) */
    {BINARY_WHY, 11, "", 0, 2, {14, 14}, 0, 42, 0xef91b70du,
     "(vec2<u32>, vec2<u32>): chosen, ranks 0 0\n"},
    /* >(vec2<u32>, __frexp_result_f16) */
    {BINARY_WHY, 11, "", 0, 2, {14, 27}, 8, 1209, 0xf450d4ffu,
     NULL},
    /* >=(vec2<u32>, vec2<u32>) */
    {BINARY_WHY, 12, "", 0, 2, {14, 14}, 0, 42, 0xef91b70du,
     "(vec2<u32>, vec2<u32>): chosen, ranks 0 0\n"},
    /* >=(vec2<u32>, __frexp_result_f16) */
    {BINARY_WHY, 12, "", 0, 2, {14, 27}, 8, 1209, 0xf450d4ffu,
     NULL},
    /* |(u32, u32) */
    {BINARY_WHY, 13, "", 0, 2, {4, 4}, 0, 30, 0x7e634635u,
     "(u32, u32): chosen, ranks 0 0\n"},
    /* |(u32, __frexp_result_f16) */
    {BINARY_WHY, 13, "", 0, 2, {4, 27}, 8, 695, 0x4a45c905u,
     NULL},
    /* &(u32, u32) */
    {BINARY_WHY, 14, "", 0, 2, {4, 4}, 0, 30, 0x7e634635u,
     "(u32, u32): chosen, ranks 0 0\n"},
    /* &(u32, __frexp_result_f16) */
    {BINARY_WHY, 14, "", 0, 2, {4, 27}, 8, 695, 0x4a45c905u,
     NULL},
    /* ^(vec4<i32>, vec4<i32>) */
    {BINARY_WHY, 15, "", 0, 2, {12, 12}, 0, 42, 0x52feaee5u,
     "(vec4<i32>, vec4<i32>): chosen, ranks 0 0\n"},
    /* ^(vec4<i32>, __frexp_result_f16) */
    {BINARY_WHY, 15, "", 0, 2, {12, 27}, 8, 601, 0x7b583313u,
     NULL},
    /* <<(vec4<i32>, vec4<u32>) */
    {BINARY_WHY, 16, "", 0, 2, {12, 13}, 0, 42, 0x4a07e959u,
     "(vec4<i32>, vec4<u32>): chosen, ranks 0 0\n"},
    /* <<(vec4<i32>, __frexp_result_f16) */
    {BINARY_WHY, 16, "", 0, 2, {12, 27}, 8, 569, 0x141b6c99u,
     NULL},
    /* >>(vec4<i32>, vec4<u32>) */
    {BINARY_WHY, 17, "", 0, 2, {12, 13}, 0, 42, 0x4a07e959u,
     "(vec4<i32>, vec4<u32>): chosen, ranks 0 0\n"},
    /* >>(vec4<i32>, __frexp_result_f16) */
    {BINARY_WHY, 17, "", 0, 2, {12, 27}, 8, 569, 0x141b6c99u,
     NULL},
    /* acos(vec2<f32>) */
    {CALL_WHY, 0, "acos", 0, 1, {7}, 0, 28, 0x4cf58fdbu,
     "(vec2<f32>): chosen, rank 0\n"},
    /* acos(__frexp_result_f16) */
    {CALL_WHY, 0, "acos", 0, 1, {27}, 8, 562, 0x6e02ae18u,
     NULL},
    /* acosh(vec2<f32>) */
    {CALL_WHY, 0, "acosh", 0, 1, {7}, 0, 28, 0x4cf58fdbu,
     "(vec2<f32>): chosen, rank 0\n"},
    /* acosh(__frexp_result_f16) */
    {CALL_WHY, 0, "acosh", 0, 1, {27}, 8, 562, 0x6e02ae18u,
     NULL},
    /* asin(vec2<f32>) */
    {CALL_WHY, 0, "asin", 0, 1, {7}, 0, 28, 0x4cf58fdbu,
     "(vec2<f32>): chosen, rank 0\n"},
    /* asin(__frexp_result_f16) */
    {CALL_WHY, 0, "asin", 0, 1, {27}, 8, 562, 0x6e02ae18u,
     NULL},
    /* asinh(vec2<f32>) */
    {CALL_WHY, 0, "asinh", 0, 1, {7}, 0, 28, 0x4cf58fdbu,
     "(vec2<f32>): chosen, rank 0\n"},
    /* asinh(__frexp_result_f16) */
    {CALL_WHY, 0, "asinh", 0, 1, {27}, 8, 562, 0x6e02ae18u,
     NULL},
    /* atan(vec2<f32>) */
    {CALL_WHY, 0, "atan", 0, 1, {7}, 0, 28, 0x4cf58fdbu,
     "(vec2<f32>): chosen, rank 0\n"},
    /* atan(__frexp_result_f16) */
    {CALL_WHY, 0, "atan", 0, 1, {27}, 8, 562, 0x6e02ae18u,
     NULL},
    /* atanh(vec2<f32>) */
    {CALL_WHY, 0, "atanh", 0, 1, {7}, 0, 28, 0x4cf58fdbu,
     "(vec2<f32>): chosen, rank 0\n"},
    /* atanh(__frexp_result_f16) */
    {CALL_WHY, 0, "atanh", 0, 1, {27}, 8, 562, 0x6e02ae18u,
     NULL},
    /* ceil(vec2<f32>) */
    {CALL_WHY, 0, "ceil", 0, 1, {7}, 0, 28, 0x4cf58fdbu,
     "(vec2<f32>): chosen, rank 0\n"},
    /* ceil(__frexp_result_f16) */
    {CALL_WHY, 0, "ceil", 0, 1, {27}, 8, 562, 0x6e02ae18u,
     NULL},
    /* cos(vec2<f32>) */
    {CALL_WHY, 0, "cos", 0, 1, {7}, 0, 28, 0x4cf58fdbu,
     "(vec2<f32>): chosen, rank 0\n"},
    /* cos(__frexp_result_f16) */
    {CALL_WHY, 0, "cos", 0, 1, {27}, 8, 562, 0x6e02ae18u,
     NULL},
    /* cosh(vec2<f32>) */
    {CALL_WHY, 0, "cosh", 0, 1, {7}, 0, 28, 0x4cf58fdbu,
     "(vec2<f32>): chosen, rank 0\n"},
    /* cosh(__frexp_result_f16) */
    {CALL_WHY, 0, "cosh", 0, 1, {27}, 8, 562, 0x6e02ae18u,
     NULL},
    /* degrees(vec2<f32>) */
    {CALL_WHY, 0, "degrees", 0, 1, {7}, 0, 28, 0x4cf58fdbu,
     "(vec2<f32>): chosen, rank 0\n"},
    /* degrees(__frexp_result_f16) */
    {CALL_WHY, 0, "degrees", 0, 1, {27}, 8, 562, 0x6e02ae18u,
     NULL},
    /* exp(vec2<f32>) */
    {CALL_WHY, 0, "exp", 0, 1, {7}, 0, 28, 0x4cf58fdbu,
     "(vec2<f32>): chosen, rank 0\n"},
    /* exp(__frexp_result_f16) */
    {CALL_WHY, 0, "exp", 0, 1, {27}, 8, 562, 0x6e02ae18u,
     NULL},
    /* exp2(vec2<f32>) */
    {CALL_WHY, 0, "exp2", 0, 1, {7}, 0, 28, 0x4cf58fdbu,
     "(vec2<f32>): chosen, rank 0\n"},
    /* exp2(__frexp_result_f16) */
    {CALL_WHY, 0, "exp2", 0, 1, {27}, 8, 562, 0x6e02ae18u,
     NULL},
    /* floor(vec2<f32>) */
    {CALL_WHY, 0, "floor", 0, 1, {7}, 0, 28, 0x4cf58fdbu,
     "(vec2<f32>): chosen, rank 0\n"},
    /* floor(__frexp_result_f16) */
    {CALL_WHY, 0, "floor", 0, 1, {27}, 8, 562, 0x6e02ae18u,
     NULL},
    /* fract(vec2<f32>) */
    {CALL_WHY, 0, "fract", 0, 1, {7}, 0, 28, 0x4cf58fdbu,
     "(vec2<f32>): chosen, rank 0\n"},
    /* fract(__frexp_result_f16) */
    {CALL_WHY, 0, "fract", 0, 1, {27}, 8, 562, 0x6e02ae18u,
     NULL},
    /* inverseSqrt(vec2<f32>) */
    {CALL_WHY, 0, "inverseSqrt", 0, 1, {7}, 0, 28, 0x4cf58fdbu,
     "(vec2<f32>): chosen, rank 0\n"},
    /* inverseSqrt(__frexp_result_f16) */
    {CALL_WHY, 0, "inverseSqrt", 0, 1, {27}, 8, 562, 0x6e02ae18u,
     NULL},
    /* log(vec2<f32>) */
    {CALL_WHY, 0, "log", 0, 1, {7}, 0, 28, 0x4cf58fdbu,
     "(vec2<f32>): chosen, rank 0\n"},
    /* log(__frexp_result_f16) */
    {CALL_WHY, 0, "log", 0, 1, {27}, 8, 562, 0x6e02ae18u,
     NULL},
    /* log2(vec2<f32>) */
    {CALL_WHY, 0, "log2", 0, 1, {7}, 0, 28, 0x4cf58fdbu,
     "(vec2<f32>): chosen, rank 0\n"},
    /* log2(__frexp_result_f16) */
    {CALL_WHY, 0, "log2", 0, 1, {27}, 8, 562, 0x6e02ae18u,
     NULL},
    /* radians(vec2<f32>) */
    {CALL_WHY, 0, "radians", 0, 1, {7}, 0, 28, 0x4cf58fdbu,
     "(vec2<f32>): chosen, rank 0\n"},
    /* radians(__frexp_result_f16) */
    {CALL_WHY, 0, "radians", 0, 1, {27}, 8, 562, 0x6e02ae18u,
     NULL},
    /* round(vec2<f32>) */
    {CALL_WHY, 0, "round", 0, 1, {7}, 0, 28, 0x4cf58fdbu,
     "(vec2<f32>): chosen, rank 0\n"},
    /* round(__frexp_result_f16) */
    {CALL_WHY, 0, "round", 0, 1, {27}, 8, 562, 0x6e02ae18u,
     NULL},
    /* saturate(vec2<f32>) */
    {CALL_WHY, 0, "saturate", 0, 1, {7}, 0, 28, 0x4cf58fdbu,
     "(vec2<f32>): chosen, rank 0\n"},
    /* saturate(__frexp_result_f16) */
    {CALL_WHY, 0, "saturate", 0, 1, {27}, 8, 562, 0x6e02ae18u,
     NULL},
    /* sin(vec2<f32>) */
    {CALL_WHY, 0, "sin", 0, 1, {7}, 0, 28, 0x4cf58fdbu,
     "(vec2<f32>): chosen, rank 0\n"},
    /* sin(__frexp_result_f16) */
    {CALL_WHY, 0, "sin", 0, 1, {27}, 8, 562, 0x6e02ae18u,
     NULL},
    /* sinh(vec2<f32>) */
    {CALL_WHY, 0, "sinh", 0, 1, {7}, 0, 28, 0x4cf58fdbu,
     "(vec2<f32>): chosen, rank 0\n"},
    /* sinh(__frexp_result_f16) */
    {CALL_WHY, 0, "sinh", 0, 1, {27}, 8, 562, 0x6e02ae18u,
     NULL},
    /* sqrt(vec2<f32>) */
    {CALL_WHY, 0, "sqrt", 0, 1, {7}, 0, 28, 0x4cf58fdbu,
     "(vec2<f32>): chosen, rank 0\n"},
    /* sqrt(__frexp_result_f16) */
    {CALL_WHY, 0, "sqrt", 0, 1, {27}, 8, 562, 0x6e02ae18u,
     NULL},
    /* tan(vec2<f32>) */
    {CALL_WHY, 0, "tan", 0, 1, {7}, 0, 28, 0x4cf58fdbu,
     "(vec2<f32>): chosen, rank 0\n"},
    /* tan(__frexp_result_f16) */
    {CALL_WHY, 0, "tan", 0, 1, {27}, 8, 562, 0x6e02ae18u,
     NULL},
    /* tanh(vec2<f32>) */
    {CALL_WHY, 0, "tanh", 0, 1, {7}, 0, 28, 0x4cf58fdbu,
     "(vec2<f32>): chosen, rank 0\n"},
    /* tanh(__frexp_result_f16) */
    {CALL_WHY, 0, "tanh", 0, 1, {27}, 8, 562, 0x6e02ae18u,
     NULL},
    /* trunc(vec2<f32>) */
    {CALL_WHY, 0, "trunc", 0, 1, {7}, 0, 28, 0x4cf58fdbu,
     "(vec2<f32>): chosen, rank 0\n"},
    /* trunc(__frexp_result_f16) */
    {CALL_WHY, 0, "trunc", 0, 1, {27}, 8, 562, 0x6e02ae18u,
     NULL},
    /* atan2(vec2<f32>, vec2<f32>) */
    {CALL_WHY, 0, "atan2", 0, 2, {7, 7}, 0, 42, 0x7f565cbbu,
     "(vec2<f32>, vec2<f32>): chosen, ranks 0 0\n"},
    /* atan2(vec2<f32>, __frexp_result_f16) */
    {CALL_WHY, 0, "atan2", 0, 2, {7, 27}, 8, 617, 0x492111c6u,
     NULL},
    /* pow(vec2<f32>, vec2<f32>) */
    {CALL_WHY, 0, "pow", 0, 2, {7, 7}, 0, 42, 0x7f565cbbu,
     "(vec2<f32>, vec2<f32>): chosen, ranks 0 0\n"},
    /* pow(vec2<f32>, __frexp_result_f16) */
    {CALL_WHY, 0, "pow", 0, 2, {7, 27}, 8, 617, 0x492111c6u,
     NULL},
    /* step(vec2<f32>, vec2<f32>) */
    {CALL_WHY, 0, "step", 0, 2, {7, 7}, 0, 42, 0x7f565cbbu,
     "(vec2<f32>, vec2<f32>): chosen, ranks 0 0\n"},
    /* step(vec2<f32>, __frexp_result_f16) */
    {CALL_WHY, 0, "step", 0, 2, {7, 27}, 8, 617, 0x492111c6u,
     NULL},
    /* fma(vec2<f32>, vec2<f32>, vec2<f32>) */
    {CALL_WHY, 0, "fma", 0, 3, {7, 7, 7}, 0, 55, 0x4cbde72cu,
     "(vec2<f32>, vec2<f32>, vec2<f32>): chosen, ranks 0 0 0\n"},
    /* fma(vec2<f32>, vec2<f32>, __frexp_result_f16) */
    {CALL_WHY, 0, "fma", 0, 3, {7, 7, 27}, 8, 771, 0x411f4a74u,
     NULL},
    /* smoothstep(vec2<f32>, vec2<f32>, vec2<f32>) */
    {CALL_WHY, 0, "smoothstep", 0, 3, {7, 7, 7}, 0, 55, 0x4cbde72cu,
     "(vec2<f32>, vec2<f32>, vec2<f32>): chosen, ranks 0 0 0\n"},
    /* smoothstep(vec2<f32>, vec2<f32>, __frexp_result_f16) */
    {CALL_WHY, 0, "smoothstep", 0, 3, {7, 7, 27}, 8, 771, 0x411f4a74u,
     NULL},
    /* mix(vec4<f32>, vec4<f32>, vec4<f32>) */
    {CALL_WHY, 0, "mix", 0, 3, {9, 9, 9}, 0, 55, 0x3a80b8c6u,
     "(vec4<f32>, vec4<f32>, vec4<f32>): chosen, ranks 0 0 0\n"},
    /* mix(vec4<f32>, vec4<f32>, __frexp_result_f16) */
    {CALL_WHY, 0, "mix", 0, 3, {9, 9, 27}, 8, 1338, 0x5e5e38d2u,
     NULL},
    /* abs(vec2<u32>) */
    {CALL_WHY, 0, "abs", 0, 1, {14}, 0, 28, 0x3bf659c8u,
     "(vec2<u32>): chosen, rank 0\n"},
    /* abs(__frexp_result_f16) */
    {CALL_WHY, 0, "abs", 0, 1, {27}, 8, 1116, 0x06b3fdebu,
     NULL},
    /* max(vec2<u32>, vec2<u32>) */
    {CALL_WHY, 0, "max", 0, 2, {14, 14}, 0, 42, 0xef91b70du,
     "(vec2<u32>, vec2<u32>): chosen, ranks 0 0\n"},
    /* max(vec2<u32>, __frexp_result_f16) */
    {CALL_WHY, 0, "max", 0, 2, {14, 27}, 8, 1209, 0xf450d4ffu,
     NULL},
    /* min(vec2<u32>, vec2<u32>) */
    {CALL_WHY, 0, "min", 0, 2, {14, 14}, 0, 42, 0xef91b70du,
     "(vec2<u32>, vec2<u32>): chosen, ranks 0 0\n"},
    /* min(vec2<u32>, __frexp_result_f16) */
    {CALL_WHY, 0, "min", 0, 2, {14, 27}, 8, 1209, 0xf450d4ffu,
     NULL},
    /* clamp(vec2<u32>, vec2<u32>, vec2<u32>) */
    {CALL_WHY, 0, "clamp", 0, 3, {14, 14, 14}, 0, 55, 0x579fa55bu,
     "(vec2<u32>, vec2<u32>, vec2<u32>): chosen, ranks 0 0 0\n"},
    /* clamp(vec2<u32>, vec2<u32>, __frexp_result_f16) */
    {CALL_WHY, 0, "clamp", 0, 3, {14, 14, 27}, 8, 1509, 0x4ec27bdau,
     NULL},
    /* sign(vec4<i32>) */
    {CALL_WHY, 0, "sign", 0, 1, {12}, 0, 28, 0x4dce773au,
     "(vec4<i32>): chosen, rank 0\n"},
    /* sign(__frexp_result_f16) */
    {CALL_WHY, 0, "sign", 0, 1, {27}, 8, 942, 0xbcbd95d2u,
     NULL},
    /* countLeadingZeros(u32) */
    {CALL_WHY, 0, "countLeadingZeros", 0, 1, {4}, 0, 22, 0xfb1ce75eu,
     "(u32): chosen, rank 0\n"},
    /* countLeadingZeros(__frexp_result_f16) */
    {CALL_WHY, 0, "countLeadingZeros", 0, 1, {27}, 8, 348, 0x9d5290a1u,
     NULL},
    /* countOneBits(u32) */
    {CALL_WHY, 0, "countOneBits", 0, 1, {4}, 0, 22, 0xfb1ce75eu,
     "(u32): chosen, rank 0\n"},
    /* countOneBits(__frexp_result_f16) */
    {CALL_WHY, 0, "countOneBits", 0, 1, {27}, 8, 348, 0x9d5290a1u,
     NULL},
    /* countTrailingZeros(u32) */
    {CALL_WHY, 0, "countTrailingZeros", 0, 1, {4}, 0, 22, 0xfb1ce75eu,
     "(u32): chosen, rank 0\n"},
    /* countTrailingZeros(__frexp_result_f16) */
    {CALL_WHY, 0, "countTrailingZeros", 0, 1, {27}, 8, 348, 0x9d5290a1u,
     NULL},
    /* firstLeadingBit(u32) */
    {CALL_WHY, 0, "firstLeadingBit", 0, 1, {4}, 0, 22, 0xfb1ce75eu,
     "(u32): chosen, rank 0\n"},
    /* firstLeadingBit(__frexp_result_f16) */
    {CALL_WHY, 0, "firstLeadingBit", 0, 1, {27}, 8, 348, 0x9d5290a1u,
     NULL},
    /* firstTrailingBit(u32) */
    {CALL_WHY, 0, "firstTrailingBit", 0, 1, {4}, 0, 22, 0xfb1ce75eu,
     "(u32): chosen, rank 0\n"},
    /* firstTrailingBit(__frexp_result_f16) */
    {CALL_WHY, 0, "firstTrailingBit", 0, 1, {27}, 8, 348, 0x9d5290a1u,
     NULL},
    /* reverseBits(u32) */
    {CALL_WHY, 0, "reverseBits", 0, 1, {4}, 0, 22, 0xfb1ce75eu,
     "(u32): chosen, rank 0\n"},
    /* reverseBits(__frexp_result_f16) */
    {CALL_WHY, 0, "reverseBits", 0, 1, {27}, 8, 348, 0x9d5290a1u,
     NULL},
    /* extractBits(u32, u32, u32) */
    {CALL_WHY, 0, "extractBits", 0, 3, {4, 4, 4}, 0, 37, 0x432e71c1u,
     "(u32, u32, u32): chosen, ranks 0 0 0\n"},
    /* extractBits(u32, u32, __frexp_result_f16) */
    {CALL_WHY, 0, "extractBits", 0, 3, {4, 4, 27}, 8, 323, 0xac7bf460u,
     NULL},
    /* insertBits(u32, u32, u32, u32) */
    {CALL_WHY, 0, "insertBits", 0, 4, {4, 4, 4, 4}, 0, 44, 0xe9f6df95u,
     "(u32, u32, u32, u32): chosen, ranks 0 0 0 0\n"},
    /* insertBits(u32, u32, u32, __frexp_result_f16) */
    {CALL_WHY, 0, "insertBits", 0, 4, {4, 4, 4, 27}, 8, 399, 0x128f64a1u,
     NULL},
    /* length(vec2<f32>) */
    {CALL_WHY, 0, "length", 0, 1, {7}, 0, 28, 0x4cf58fdbu,
     "(vec2<f32>): chosen, rank 0\n"},
    /* length(__frexp_result_f16) */
    {CALL_WHY, 0, "length", 0, 1, {27}, 8, 562, 0x6e02ae18u,
     NULL},
    /* distance(vec2<f32>, vec2<f32>) */
    {CALL_WHY, 0, "distance", 0, 2, {7, 7}, 0, 42, 0x7f565cbbu,
     "(vec2<f32>, vec2<f32>): chosen, ranks 0 0\n"},
    /* distance(vec2<f32>, __frexp_result_f16) */
    {CALL_WHY, 0, "distance", 0, 2, {7, 27}, 8, 617, 0x492111c6u,
     NULL},
    /* dot(vec4<u32>, vec4<u32>) */
    {CALL_WHY, 0, "dot", 0, 2, {13, 13}, 0, 42, 0x7193d91du,
     "(vec4<u32>, vec4<u32>): chosen, ranks 0 0\n"},
    /* dot(vec4<u32>, __frexp_result_f16) */
    {CALL_WHY, 0, "dot", 0, 2, {13, 27}, 8, 963, 0xf14d1d9du,
     NULL},
    /* normalize(vec3<f32>) */
    {CALL_WHY, 0, "normalize", 0, 1, {8}, 0, 28, 0x11efef7au,
     "(vec3<f32>): chosen, rank 0\n"},
    /* normalize(__frexp_result_f16) */
    {CALL_WHY, 0, "normalize", 0, 1, {27}, 8, 435, 0xc294694eu,
     NULL},
    /* reflect(vec3<f32>, vec3<f32>) */
    {CALL_WHY, 0, "reflect", 0, 2, {8, 8}, 0, 42, 0x60dfa895u,
     "(vec3<f32>, vec3<f32>): chosen, ranks 0 0\n"},
    /* reflect(vec3<f32>, __frexp_result_f16) */
    {CALL_WHY, 0, "reflect", 0, 2, {8, 27}, 8, 492, 0x8a842f1eu,
     NULL},
    /* faceForward(vec3<f32>, vec3<f32>, vec3<f32>) */
    {CALL_WHY, 0, "faceForward", 0, 3, {8, 8, 8}, 0, 55, 0x52f9bdc5u,
     "(vec3<f32>, vec3<f32>, vec3<f32>): chosen, ranks 0 0 0\n"},
    /* faceForward(vec3<f32>, vec3<f32>, __frexp_result_f16) */
    {CALL_WHY, 0, "faceForward", 0, 3, {8, 8, 27}, 8, 621, 0x405c1c82u,
     NULL},
    /* refract(vec3<f32>, vec3<f32>, f32) */
    {CALL_WHY, 0, "refract", 0, 3, {8, 8, 5}, 0, 49, 0x47439676u,
     "(vec3<f32>, vec3<f32>, f32): chosen, ranks 0 0 0\n"},
    /* refract(vec3<f32>, vec3<f32>, __frexp_result_f16) */
    {CALL_WHY, 0, "refract", 0, 3, {8, 8, 27}, 8, 567, 0x7ad11127u,
     NULL},
    /* cross(vec3<f32>, vec3<f32>) */
    {CALL_WHY, 0, "cross", 0, 2, {8, 8}, 0, 42, 0x60dfa895u,
     "(vec3<f32>, vec3<f32>): chosen, ranks 0 0\n"},
    /* cross(vec3<f32>, __frexp_result_f16) */
    {CALL_WHY, 0, "cross", 0, 2, {8, 27}, 8, 170, 0x38417f62u,
     "(vec3<AbstractFloat>, vec3<AbstractFloat>): operand 1 is vec3<f32>\n" "(vec3<f32>, vec3<f32>): operand 2 is __frexp_result_f16\n" "(vec3<f16>, vec3<f16>): operand 1 is vec3<f32>\n"},
    /* determinant(mat2x2<f32>) */
    {CALL_WHY, 0, "determinant", 0, 1, {16}, 0, 30, 0xcb4f4181u,
     "(mat2x2<f32>): chosen, rank 0\n"},
    /* determinant(__frexp_result_f16) */
    {CALL_WHY, 0, "determinant", 0, 1, {27}, 8, 453, 0x4e233b91u,
     NULL},
    /* transpose(mat2x4<f32>) */
    {CALL_WHY, 0, "transpose", 0, 1, {18}, 0, 30, 0x0847d857u,
     "(mat2x4<f32>): chosen, rank 0\n"},
    /* transpose(__frexp_result_f16) */
    {CALL_WHY, 0, "transpose", 0, 1, {27}, 8, 1359, 0x14ba0635u,
     NULL},
    /* dpdx(vec3<f32>) */
    {CALL_WHY, 0, "dpdx", 0, 1, {8}, 0, 28, 0x11efef7au,
     "(vec3<f32>): chosen, rank 0\n"},
    /* dpdx(__frexp_result_f16) */
    {CALL_WHY, 0, "dpdx", 0, 1, {27}, 8, 174, 0x115589eeu,
     "(f32): operand 1 is __frexp_result_f16\n" "(vec2<f32>): operand 1 is __frexp_result_f16\n" "(vec3<f32>): operand 1 is __frexp_result_f16\n" "(vec4<f32>): operand 1 is __frexp_result_f16\n"},
    /* dpdy(vec3<f32>) */
    {CALL_WHY, 0, "dpdy", 0, 1, {8}, 0, 28, 0x11efef7au,
     "(vec3<f32>): chosen, rank 0\n"},
    /* dpdy(__frexp_result_f16) */
    {CALL_WHY, 0, "dpdy", 0, 1, {27}, 8, 174, 0x115589eeu,
     "(f32): operand 1 is __frexp_result_f16\n" "(vec2<f32>): operand 1 is __frexp_result_f16\n" "(vec3<f32>): operand 1 is __frexp_result_f16\n" "(vec4<f32>): operand 1 is __frexp_result_f16\n"},
    /* fwidth(vec3<f32>) */
    {CALL_WHY, 0, "fwidth", 0, 1, {8}, 0, 28, 0x11efef7au,
     "(vec3<f32>): chosen, rank 0\n"},
    /* fwidth(__frexp_result_f16) */
    {CALL_WHY, 0, "fwidth", 0, 1, {27}, 8, 174, 0x115589eeu,
     "(f32): operand 1 is __frexp_result_f16\n" "(vec2<f32>): operand 1 is __frexp_result_f16\n" "(vec3<f32>): operand 1 is __frexp_result_f16\n" "(vec4<f32>): operand 1 is __frexp_result_f16\n"},
    /* dpdxCoarse(vec3<f32>) */
    {CALL_WHY, 0, "dpdxCoarse", 0, 1, {8}, 0, 28, 0x11efef7au,
     "(vec3<f32>): chosen, rank 0\n"},
    /* dpdxCoarse(__frexp_result_f16) */
    {CALL_WHY, 0, "dpdxCoarse", 0, 1, {27}, 8, 174, 0x115589eeu,
     "(f32): operand 1 is __frexp_result_f16\n" "(vec2<f32>): operand 1 is __frexp_result_f16\n" "(vec3<f32>): operand 1 is __frexp_result_f16\n" "(vec4<f32>): operand 1 is __frexp_result_f16\n"},
    /* dpdyCoarse(vec3<f32>) */
    {CALL_WHY, 0, "dpdyCoarse", 0, 1, {8}, 0, 28, 0x11efef7au,
     "(vec3<f32>): chosen, rank 0\n"},
    /* dpdyCoarse(__frexp_result_f16) */
    {CALL_WHY, 0, "dpdyCoarse", 0, 1, {27}, 8, 174, 0x115589eeu,
     "(f32): operand 1 is __frexp_result_f16\n" "(vec2<f32>): operand 1 is __frexp_result_f16\n" "(vec3<f32>): operand 1 is __frexp_result_f16\n" "(vec4<f32>): operand 1 is __frexp_result_f16\n"},
    /* fwidthCoarse(vec3<f32>) */
    {CALL_WHY, 0, "fwidthCoarse", 0, 1, {8}, 0, 28, 0x11efef7au,
     "(vec3<f32>): chosen, rank 0\n"},
    /* fwidthCoarse(__frexp_result_f16) */
    {CALL_WHY, 0, "fwidthCoarse", 0, 1, {27}, 8, 174, 0x115589eeu,
     "(f32): operand 1 is __frexp_result_f16\n" "(vec2<f32>): operand 1 is __frexp_result_f16\n" "(vec3<f32>): operand 1 is __frexp_result_f16\n" "(vec4<f32>): operand 1 is __frexp_result_f16\n"},
    /* dpdxFine(vec3<f32>) */
    {CALL_WHY, 0, "dpdxFine", 0, 1, {8}, 0, 28, 0x11efef7au,
     "(vec3<f32>): chosen, rank 0\n"},
    /* dpdxFine(__frexp_result_f16) */
    {CALL_WHY, 0, "dpdxFine", 0, 1, {27}, 8, 174, 0x115589eeu,
     "(f32): operand 1 is __frexp_result_f16\n" "(vec2<f32>): operand 1 is __frexp_result_f16\n" "(vec3<f32>): operand 1 is __frexp_result_f16\n" "(vec4<f32>): operand 1 is __frexp_result_f16\n"},
    /* dpdyFine(vec3<f32>) */
    {CALL_WHY, 0, "dpdyFine", 0, 1, {8}, 0, 28, 0x11efef7au,
     "(vec3<f32>): chosen, rank 0\n"},
    /* dpdyFine(__frexp_result_f16) */
    {CALL_WHY, 0, "dpdyFine", 0, 1, {27}, 8, 174, 0x115589eeu,
     "(f32): operand 1 is __frexp_result_f16\n" "(vec2<f32>): operand 1 is __frexp_result_f16\n" "(vec3<f32>): operand 1 is __frexp_result_f16\n" "(vec4<f32>): operand 1 is __frexp_result_f16\n"},
    /* fwidthFine(vec3<f32>) */
    {CALL_WHY, 0, "fwidthFine", 0, 1, {8}, 0, 28, 0x11efef7au,
     "(vec3<f32>): chosen, rank 0\n"},
    /* fwidthFine(__frexp_result_f16) */
    {CALL_WHY, 0, "fwidthFine", 0, 1, {27}, 8, 174, 0x115589eeu,
     "(f32): operand 1 is __frexp_result_f16\n" "(vec2<f32>): operand 1 is __frexp_result_f16\n" "(vec3<f32>): operand 1 is __frexp_result_f16\n" "(vec4<f32>): operand 1 is __frexp_result_f16\n"},
    /* quantizeToF16(vec3<f32>) */
    {CALL_WHY, 0, "quantizeToF16", 0, 1, {8}, 0, 28, 0x11efef7au,
     "(vec3<f32>): chosen, rank 0\n"},
    /* quantizeToF16(__frexp_result_f16) */
    {CALL_WHY, 0, "quantizeToF16", 0, 1, {27}, 8, 174, 0x115589eeu,
     "(f32): operand 1 is __frexp_result_f16\n" "(vec2<f32>): operand 1 is __frexp_result_f16\n" "(vec3<f32>): operand 1 is __frexp_result_f16\n" "(vec4<f32>): operand 1 is __frexp_result_f16\n"},
    /* frexp(vec2<f32>) */
    {CALL_WHY, 0, "frexp", 0, 1, {7}, 0, 28, 0x4cf58fdbu,
     "(vec2<f32>): chosen, rank 0\n"},
    /* frexp(__frexp_result_f16) */
    {CALL_WHY, 0, "frexp", 0, 1, {27}, 8, 562, 0x6e02ae18u,
     NULL},
    /* modf(vec2<f32>) */
    {CALL_WHY, 0, "modf", 0, 1, {7}, 0, 28, 0x4cf58fdbu,
     "(vec2<f32>): chosen, rank 0\n"},
    /* modf(__frexp_result_f16) */
    {CALL_WHY, 0, "modf", 0, 1, {27}, 8, 562, 0x6e02ae18u,
     NULL},
    /* pack4x8snorm(vec4<f32>) */
    {CALL_WHY, 0, "pack4x8snorm", 0, 1, {9}, 0, 28, 0x8392970du,
     "(vec4<f32>): chosen, rank 0\n"},
    /* pack4x8snorm(__frexp_result_f16) */
    {CALL_WHY, 0, "pack4x8snorm", 0, 1, {27}, 8, 45, 0x1aee52eeu,
     "(vec4<f32>): operand 1 is __frexp_result_f16\n"},
    /* pack4x8unorm(vec4<f32>) */
    {CALL_WHY, 0, "pack4x8unorm", 0, 1, {9}, 0, 28, 0x8392970du,
     "(vec4<f32>): chosen, rank 0\n"},
    /* pack4x8unorm(__frexp_result_f16) */
    {CALL_WHY, 0, "pack4x8unorm", 0, 1, {27}, 8, 45, 0x1aee52eeu,
     "(vec4<f32>): operand 1 is __frexp_result_f16\n"},
    /* pack4xI8(vec4<i32>) */
    {CALL_WHY, 0, "pack4xI8", 0, 1, {12}, 0, 28, 0x4dce773au,
     "(vec4<i32>): chosen, rank 0\n"},
    /* pack4xI8(__frexp_result_f16) */
    {CALL_WHY, 0, "pack4xI8", 0, 1, {27}, 8, 45, 0x8e8c9b63u,
     "(vec4<i32>): operand 1 is __frexp_result_f16\n"},
    /* pack4xI8Clamp(vec4<i32>) */
    {CALL_WHY, 0, "pack4xI8Clamp", 0, 1, {12}, 0, 28, 0x4dce773au,
     "(vec4<i32>): chosen, rank 0\n"},
    /* pack4xI8Clamp(__frexp_result_f16) */
    {CALL_WHY, 0, "pack4xI8Clamp", 0, 1, {27}, 8, 45, 0x8e8c9b63u,
     "(vec4<i32>): operand 1 is __frexp_result_f16\n"},
    /* pack4xU8(vec4<u32>) */
    {CALL_WHY, 0, "pack4xU8", 0, 1, {13}, 0, 28, 0x424e29f6u,
     "(vec4<u32>): chosen, rank 0\n"},
    /* pack4xU8(__frexp_result_f16) */
    {CALL_WHY, 0, "pack4xU8", 0, 1, {27}, 8, 45, 0x26ed372fu,
     "(vec4<u32>): operand 1 is __frexp_result_f16\n"},
    /* pack4xU8Clamp(vec4<u32>) */
    {CALL_WHY, 0, "pack4xU8Clamp", 0, 1, {13}, 0, 28, 0x424e29f6u,
     "(vec4<u32>): chosen, rank 0\n"},
    /* pack4xU8Clamp(__frexp_result_f16) */
    {CALL_WHY, 0, "pack4xU8Clamp", 0, 1, {27}, 8, 45, 0x26ed372fu,
     "(vec4<u32>): operand 1 is __frexp_result_f16\n"},
    /* pack2x16snorm(vec2<f32>) */
    {CALL_WHY, 0, "pack2x16snorm", 0, 1, {7}, 0, 28, 0x4cf58fdbu,
     "(vec2<f32>): chosen, rank 0\n"},
    /* pack2x16snorm(__frexp_result_f16) */
    {CALL_WHY, 0, "pack2x16snorm", 0, 1, {27}, 8, 45, 0xbd3936d4u,
     "(vec2<f32>): operand 1 is __frexp_result_f16\n"},
    /* pack2x16unorm(vec2<f32>) */
    {CALL_WHY, 0, "pack2x16unorm", 0, 1, {7}, 0, 28, 0x4cf58fdbu,
     "(vec2<f32>): chosen, rank 0\n"},
    /* pack2x16unorm(__frexp_result_f16) */
    {CALL_WHY, 0, "pack2x16unorm", 0, 1, {27}, 8, 45, 0xbd3936d4u,
     "(vec2<f32>): operand 1 is __frexp_result_f16\n"},
    /* pack2x16float(vec2<f32>) */
    {CALL_WHY, 0, "pack2x16float", 0, 1, {7}, 0, 28, 0x4cf58fdbu,
     "(vec2<f32>): chosen, rank 0\n"},
    /* pack2x16float(__frexp_result_f16) */
    {CALL_WHY, 0, "pack2x16float", 0, 1, {27}, 8, 45, 0xbd3936d4u,
     "(vec2<f32>): operand 1 is __frexp_result_f16\n"},
    /* unpack4x8snorm(u32) */
    {CALL_WHY, 0, "unpack4x8snorm", 0, 1, {4}, 0, 22, 0xfb1ce75eu,
     "(u32): chosen, rank 0\n"},
    /* unpack4x8snorm(__frexp_result_f16) */
    {CALL_WHY, 0, "unpack4x8snorm", 0, 1, {27}, 8, 39, 0x3cb8ae97u,
     "(u32): operand 1 is __frexp_result_f16\n"},
    /* unpack4x8unorm(u32) */
    {CALL_WHY, 0, "unpack4x8unorm", 0, 1, {4}, 0, 22, 0xfb1ce75eu,
     "(u32): chosen, rank 0\n"},
    /* unpack4x8unorm(__frexp_result_f16) */
    {CALL_WHY, 0, "unpack4x8unorm", 0, 1, {27}, 8, 39, 0x3cb8ae97u,
     "(u32): operand 1 is __frexp_result_f16\n"},
    /* unpack4xI8(u32) */
    {CALL_WHY, 0, "unpack4xI8", 0, 1, {4}, 0, 22, 0xfb1ce75eu,
     "(u32): chosen, rank 0\n"},
    /* unpack4xI8(__frexp_result_f16) */
    {CALL_WHY, 0, "unpack4xI8", 0, 1, {27}, 8, 39, 0x3cb8ae97u,
     "(u32): operand 1 is __frexp_result_f16\n"},
    /* unpack4xU8(u32) */
    {CALL_WHY, 0, "unpack4xU8", 0, 1, {4}, 0, 22, 0xfb1ce75eu,
     "(u32): chosen, rank 0\n"},
    /* unpack4xU8(__frexp_result_f16) */
    {CALL_WHY, 0, "unpack4xU8", 0, 1, {27}, 8, 39, 0x3cb8ae97u,
     "(u32): operand 1 is __frexp_result_f16\n"},
    /* unpack2x16snorm(u32) */
    {CALL_WHY, 0, "unpack2x16snorm", 0, 1, {4}, 0, 22, 0xfb1ce75eu,
     "(u32): chosen, rank 0\n"},
    /* unpack2x16snorm(__frexp_result_f16) */
    {CALL_WHY, 0, "unpack2x16snorm", 0, 1, {27}, 8, 39, 0x3cb8ae97u,
     "(u32): operand 1 is __frexp_result_f16\n"},
    /* unpack2x16unorm(u32) */
    {CALL_WHY, 0, "unpack2x16unorm", 0, 1, {4}, 0, 22, 0xfb1ce75eu,
     "(u32): chosen, rank 0\n"},
    /* unpack2x16unorm(__frexp_result_f16) */
    {CALL_WHY, 0, "unpack2x16unorm", 0, 1, {27}, 8, 39, 0x3cb8ae97u,
     "(u32): operand 1 is __frexp_result_f16\n"},
    /* unpack2x16float(u32) */
    {CALL_WHY, 0, "unpack2x16float", 0, 1, {4}, 0, 22, 0xfb1ce75eu,
     "(u32): chosen, rank 0\n"},
    /* unpack2x16float(__frexp_result_f16) */
    {CALL_WHY, 0, "unpack2x16float", 0, 1, {27}, 8, 39, 0x3cb8ae97u,
     "(u32): operand 1 is __frexp_result_f16\n"},
    /* dot4U8Packed(u32, u32) */
    {CALL_WHY, 0, "dot4U8Packed", 0, 2, {4, 4}, 0, 30, 0x7e634635u,
     "(u32, u32): chosen, ranks 0 0\n"},
    /* dot4U8Packed(u32, __frexp_result_f16) */
    {CALL_WHY, 0, "dot4U8Packed", 0, 2, {4, 27}, 8, 44, 0x593cb1acu,
     "(u32, u32): operand 2 is __frexp_result_f16\n"},
    /* dot4I8Packed(u32, u32) */
    {CALL_WHY, 0, "dot4I8Packed", 0, 2, {4, 4}, 0, 30, 0x7e634635u,
     "(u32, u32): chosen, ranks 0 0\n"},
    /* dot4I8Packed(u32, __frexp_result_f16) */
    {CALL_WHY, 0, "dot4I8Packed", 0, 2, {4, 27}, 8, 44, 0x593cb1acu,
     "(u32, u32): operand 2 is __frexp_result_f16\n"},
    /* all(vec2<bool>) */
    {CALL_WHY, 0, "all", 0, 1, {15}, 0, 29, 0x7d42053cu,
     "(vec2<bool>): chosen, rank 0\n"},
    /* all(__frexp_result_f16) */
    {CALL_WHY, 0, "all", 0, 1, {27}, 8, 178, 0x58d63d6cu,
     "(bool): operand 1 is __frexp_result_f16\n" "(vec2<bool>): operand 1 is __frexp_result_f16\n" "(vec3<bool>): operand 1 is __frexp_result_f16\n" "(vec4<bool>): operand 1 is __frexp_result_f16\n"},
    /* any(vec2<bool>) */
    {CALL_WHY, 0, "any", 0, 1, {15}, 0, 29, 0x7d42053cu,
     "(vec2<bool>): chosen, rank 0\n"},
    /* any(__frexp_result_f16) */
    {CALL_WHY, 0, "any", 0, 1, {27}, 8, 178, 0x58d63d6cu,
     "(bool): operand 1 is __frexp_result_f16\n" "(vec2<bool>): operand 1 is __frexp_result_f16\n" "(vec3<bool>): operand 1 is __frexp_result_f16\n" "(vec4<bool>): operand 1 is __frexp_result_f16\n"},
    /* select(vec4<u32>, vec4<u32>, bool) */
    {CALL_WHY, 0, "select", 0, 3, {13, 13, 0}, 0, 50, 0x093e4285u,
     "(vec4<u32>, vec4<u32>, bool): chosen, ranks 0 0 0\n"},
    /* select(vec4<u32>, vec4<u32>, __frexp_result_f16) */
    {CALL_WHY, 0, "select", 0, 3, {13, 13, 27}, 8, 2923, 0xc7f4f597u,
     NULL},
    /* ldexp(vec4<f32>, vec4<i32>) */
    {CALL_WHY, 0, "ldexp", 0, 2, {9, 12}, 0, 42, 0x848a28eeu,
     "(vec4<f32>, vec4<i32>): chosen, ranks 0 0\n"},
    /* ldexp(vec4<f32>, __frexp_result_f16) */
    {CALL_WHY, 0, "ldexp", 0, 2, {9, 27}, 8, 609, 0x2c18c4d2u,
     NULL},
    /* subgroupAdd(f32) */
    {CALL_WHY, 0, "subgroupAdd", 1, 1, {5}, 0, 22, 0xdfe65aebu,
     "(f32): chosen, rank 0\n"},
    /* subgroupAdd(__frexp_result_f16) */
    {CALL_WHY, 0, "subgroupAdd", 1, 1, {27}, 8, 696, 0xcbaee229u,
     NULL},
    /* subgroupExclusiveAdd(f32) */
    {CALL_WHY, 0, "subgroupExclusiveAdd", 1, 1, {5}, 0, 22, 0xdfe65aebu,
     "(f32): chosen, rank 0\n"},
    /* subgroupExclusiveAdd(__frexp_result_f16) */
    {CALL_WHY, 0, "subgroupExclusiveAdd", 1, 1, {27}, 8, 696, 0xcbaee229u,
     NULL},
    /* subgroupInclusiveAdd(f32) */
    {CALL_WHY, 0, "subgroupInclusiveAdd", 1, 1, {5}, 0, 22, 0xdfe65aebu,
     "(f32): chosen, rank 0\n"},
    /* subgroupInclusiveAdd(__frexp_result_f16) */
    {CALL_WHY, 0, "subgroupInclusiveAdd", 1, 1, {27}, 8, 696, 0xcbaee229u,
     NULL},
    /* subgroupMul(f32) */
    {CALL_WHY, 0, "subgroupMul", 1, 1, {5}, 0, 22, 0xdfe65aebu,
     "(f32): chosen, rank 0\n"},
    /* subgroupMul(__frexp_result_f16) */
    {CALL_WHY, 0, "subgroupMul", 1, 1, {27}, 8, 696, 0xcbaee229u,
     NULL},
    /* subgroupExclusiveMul(f32) */
    {CALL_WHY, 0, "subgroupExclusiveMul", 1, 1, {5}, 0, 22, 0xdfe65aebu,
     "(f32): chosen, rank 0\n"},
    /* subgroupExclusiveMul(__frexp_result_f16) */
    {CALL_WHY, 0, "subgroupExclusiveMul", 1, 1, {27}, 8, 696, 0xcbaee229u,
     NULL},
    /* subgroupInclusiveMul(f32) */
    {CALL_WHY, 0, "subgroupInclusiveMul", 1, 1, {5}, 0, 22, 0xdfe65aebu,
     "(f32): chosen, rank 0\n"},
    /* subgroupInclusiveMul(__frexp_result_f16) */
    {CALL_WHY, 0, "subgroupInclusiveMul", 1, 1, {27}, 8, 696, 0xcbaee229u,
     NULL},
    /* subgroupMax(f32) */
    {CALL_WHY, 0, "subgroupMax", 1, 1, {5}, 0, 22, 0xdfe65aebu,
     "(f32): chosen, rank 0\n"},
    /* subgroupMax(__frexp_result_f16) */
    {CALL_WHY, 0, "subgroupMax", 1, 1, {27}, 8, 696, 0xcbaee229u,
     NULL},
    /* subgroupMin(f32) */
    {CALL_WHY, 0, "subgroupMin", 1, 1, {5}, 0, 22, 0xdfe65aebu,
     "(f32): chosen, rank 0\n"},
    /* subgroupMin(__frexp_result_f16) */
    {CALL_WHY, 0, "subgroupMin", 1, 1, {27}, 8, 696, 0xcbaee229u,
     NULL},
    /* subgroupBroadcastFirst(f32) */
    {CALL_WHY, 0, "subgroupBroadcastFirst", 1, 1, {5}, 0, 22, 0xdfe65aebu,
     "(f32): chosen, rank 0\n"},
    /* subgroupBroadcastFirst(__frexp_result_f16) */
    {CALL_WHY, 0, "subgroupBroadcastFirst", 1, 1, {27}, 8, 696, 0xcbaee229u,
     NULL},
    /* quadSwapDiagonal(f32) */
    {CALL_WHY, 0, "quadSwapDiagonal", 1, 1, {5}, 0, 22, 0xdfe65aebu,
     "(f32): chosen, rank 0\n"},
    /* quadSwapDiagonal(__frexp_result_f16) */
    {CALL_WHY, 0, "quadSwapDiagonal", 1, 1, {27}, 8, 696, 0xcbaee229u,
     NULL},
    /* quadSwapX(f32) */
    {CALL_WHY, 0, "quadSwapX", 1, 1, {5}, 0, 22, 0xdfe65aebu,
     "(f32): chosen, rank 0\n"},
    /* quadSwapX(__frexp_result_f16) */
    {CALL_WHY, 0, "quadSwapX", 1, 1, {27}, 8, 696, 0xcbaee229u,
     NULL},
    /* quadSwapY(f32) */
    {CALL_WHY, 0, "quadSwapY", 1, 1, {5}, 0, 22, 0xdfe65aebu,
     "(f32): chosen, rank 0\n"},
    /* quadSwapY(__frexp_result_f16) */
    {CALL_WHY, 0, "quadSwapY", 1, 1, {27}, 8, 696, 0xcbaee229u,
     NULL},
    /* subgroupAnd(u32) */
    {CALL_WHY, 0, "subgroupAnd", 1, 1, {4}, 0, 22, 0xfb1ce75eu,
     "(u32): chosen, rank 0\n"},
    /* subgroupAnd(__frexp_result_f16) */
    {CALL_WHY, 0, "subgroupAnd", 1, 1, {27}, 8, 348, 0x9d5290a1u,
     NULL},
    /* subgroupOr(u32) */
    {CALL_WHY, 0, "subgroupOr", 1, 1, {4}, 0, 22, 0xfb1ce75eu,
     "(u32): chosen, rank 0\n"},
    /* subgroupOr(__frexp_result_f16) */
    {CALL_WHY, 0, "subgroupOr", 1, 1, {27}, 8, 348, 0x9d5290a1u,
     NULL},
    /* subgroupXor(u32) */
    {CALL_WHY, 0, "subgroupXor", 1, 1, {4}, 0, 22, 0xfb1ce75eu,
     "(u32): chosen, rank 0\n"},
    /* subgroupXor(__frexp_result_f16) */
    {CALL_WHY, 0, "subgroupXor", 1, 1, {27}, 8, 348, 0x9d5290a1u,
     NULL},
    /* subgroupAll(bool) */
    {CALL_WHY, 0, "subgroupAll", 1, 1, {0}, 0, 23, 0x0ec138c2u,
     "(bool): chosen, rank 0\n"},
    /* subgroupAll(__frexp_result_f16) */
    {CALL_WHY, 0, "subgroupAll", 1, 1, {27}, 8, 40, 0xdb70c9ebu,
     "(bool): operand 1 is __frexp_result_f16\n"},
    /* subgroupAny(bool) */
    {CALL_WHY, 0, "subgroupAny", 1, 1, {0}, 0, 23, 0x0ec138c2u,
     "(bool): chosen, rank 0\n"},
    /* subgroupAny(__frexp_result_f16) */
    {CALL_WHY, 0, "subgroupAny", 1, 1, {27}, 8, 40, 0xdb70c9ebu,
     "(bool): operand 1 is __frexp_result_f16\n"},
    /* subgroupBallot(bool) */
    {CALL_WHY, 0, "subgroupBallot", 1, 1, {0}, 0, 23, 0x0ec138c2u,
     "(bool): chosen, rank 0\n"},
    /* subgroupBallot(__frexp_result_f16) */
    {CALL_WHY, 0, "subgroupBallot", 1, 1, {27}, 8, 40, 0xdb70c9ebu,
     "(bool): operand 1 is __frexp_result_f16\n"},
    /* subgroupElect() */
    {CALL_WHY, 0, "subgroupElect", 1, 0, {0}, 0, 11, 0x63334010u,
     "(): chosen\n"},
    /* subgroupBroadcast(f32, i32) */
    {CALL_WHY, 0, "subgroupBroadcast", 1, 2, {5, 3}, 0, 30, 0xa33ac258u,
     "(f32, i32): chosen, ranks 0 0\n"},
    /* subgroupBroadcast(f32, __frexp_result_f16) */
    {CALL_WHY, 0, "subgroupBroadcast", 1, 2, {5, 27}, 8, 1102, 0xcc05de8bu,
     NULL},
    /* subgroupShuffle(f32, i32) */
    {CALL_WHY, 0, "subgroupShuffle", 1, 2, {5, 3}, 0, 30, 0xa33ac258u,
     "(f32, i32): chosen, ranks 0 0\n"},
    /* subgroupShuffle(f32, __frexp_result_f16) */
    {CALL_WHY, 0, "subgroupShuffle", 1, 2, {5, 27}, 8, 1102, 0xcc05de8bu,
     NULL},
    /* quadBroadcast(f32, i32) */
    {CALL_WHY, 0, "quadBroadcast", 1, 2, {5, 3}, 0, 30, 0xa33ac258u,
     "(f32, i32): chosen, ranks 0 0\n"},
    /* quadBroadcast(f32, __frexp_result_f16) */
    {CALL_WHY, 0, "quadBroadcast", 1, 2, {5, 27}, 8, 1102, 0xcc05de8bu,
     NULL},
    /* subgroupShuffleDown(f32, u32) */
    {CALL_WHY, 0, "subgroupShuffleDown", 1, 2, {5, 4}, 0, 30, 0xb679e49cu,
     "(f32, u32): chosen, ranks 0 0\n"},
    /* subgroupShuffleDown(f32, __frexp_result_f16) */
    {CALL_WHY, 0, "subgroupShuffleDown", 1, 2, {5, 27}, 8, 551, 0xdb4bacecu,
     NULL},
    /* subgroupShuffleUp(f32, u32) */
    {CALL_WHY, 0, "subgroupShuffleUp", 1, 2, {5, 4}, 0, 30, 0xb679e49cu,
     "(f32, u32): chosen, ranks 0 0\n"},
    /* subgroupShuffleUp(f32, __frexp_result_f16) */
    {CALL_WHY, 0, "subgroupShuffleUp", 1, 2, {5, 27}, 8, 551, 0xdb4bacecu,
     NULL},
    /* subgroupShuffleXor(f32, u32) */
    {CALL_WHY, 0, "subgroupShuffleXor", 1, 2, {5, 4}, 0, 30, 0xb679e49cu,
     "(f32, u32): chosen, ranks 0 0\n"},
    /* subgroupShuffleXor(f32, __frexp_result_f16) */
    {CALL_WHY, 0, "subgroupShuffleXor", 1, 2, {5, 27}, 8, 551, 0xdb4bacecu,
     NULL},
    /* select(AbstractInt, AbstractInt, bool*) */
    {CALL_WHY, 0, "select", 0, 3, {1, 1, RUNNING(0)}, 0, 222, 0x3e1cb237u,
     "(i32, i32, bool): chosen, ranks 3 3 0\n" "(AbstractInt, AbstractInt, bool): dropped, operand 1 is abstract and operand 3 is running\n" "(AbstractFloat, AbstractFloat, bool): dropped, operand 1 is abstract and operand 3 is running\n"},
    /* select(AbstractInt, AbstractFloat, bool*) */
    {CALL_WHY, 0, "select", 0, 3, {1, 2, RUNNING(0)}, 0, 132, 0xfbadbcadu,
     "(f32, f32, bool): chosen, ranks 6 1 0\n" "(AbstractFloat, AbstractFloat, bool): dropped, operand 1 is abstract and operand 3 is running\n"},
    /* select(vec2<AbstractInt>, vec2<AbstractInt>, bool*) */
    {CALL_WHY, 0, "select", 0, 3, {10, 10, RUNNING(0)}, 0, 258, 0xc1a33cc7u,
     "(vec2<i32>, vec2<i32>, bool): chosen, ranks 3 3 0\n" "(vec2<AbstractInt>, vec2<AbstractInt>, bool): dropped, operand 1 is abstract and operand 3 is running\n" "(vec2<AbstractFloat>, vec2<AbstractFloat>, bool): dropped, operand 1 is abstract and operand 3 is running\n"},
    /* select(vec2<AbstractInt>, vec2<AbstractInt>, vec2<bool>*) */
    {CALL_WHY, 0, "select", 0, 3, {10, 10, RUNNING(15)}, 0, 276, 0xee7602ddu,
     "(vec2<i32>, vec2<i32>, vec2<bool>): chosen, ranks 3 3 0\n" "(vec2<AbstractInt>, vec2<AbstractInt>, vec2<bool>): dropped, operand 1 is abstract and operand 3 is running\n" "(vec2<AbstractFloat>, vec2<AbstractFloat>, vec2<bool>): dropped, operand 1 is abstract and operand 3 is running\n"},
    /* select(AbstractInt, AbstractInt, bool) */
    {CALL_WHY, 0, "select", 0, 3, {1, 1, 0}, 0, 54, 0x138b0ddbu,
     "(AbstractInt, AbstractInt, bool): chosen, ranks 0 0 0\n"},
    /* select(f16*, AbstractInt, bool*) */
    {CALL_WHY, 0, "select", 0, 3, {RUNNING(6), 1, RUNNING(0)}, 0, 38, 0x8d55f370u,
     "(f16, f16, bool): chosen, ranks 0 7 0\n"},
    /* select(AbstractInt, bool, bool*) */
    {CALL_WHY, 0, "select", 0, 3, {1, 0, RUNNING(0)}, 8, 2961, 0x0337e998u,
     NULL},
    /* <<(AbstractInt, u32*) */
    {BINARY_WHY, 16, "", 0, 2, {1, RUNNING(4)}, 0, 106, 0x45cdd741u,
     "(i32, u32): chosen, ranks 3 0\n" "(AbstractInt, u32): dropped, operand 1 is abstract and operand 2 is running\n"},
    /* <<(AbstractInt, u32) */
    {BINARY_WHY, 16, "", 0, 2, {1, 4}, 0, 38, 0xc6a34cecu,
     "(AbstractInt, u32): chosen, ranks 0 0\n"},
    /* <<(vec2<AbstractInt>, vec2<u32>*) */
    {BINARY_WHY, 16, "", 0, 2, {10, RUNNING(14)}, 0, 130, 0x813dac8fu,
     "(vec2<i32>, vec2<u32>): chosen, ranks 3 0\n" "(vec2<AbstractInt>, vec2<u32>): dropped, operand 1 is abstract and operand 2 is running\n"},
    /* <<(u32*, AbstractInt) */
    {BINARY_WHY, 16, "", 0, 2, {RUNNING(4), 1}, 0, 30, 0xf65975c1u,
     "(u32, u32): chosen, ranks 0 4\n"},
    /* clamp(AbstractInt, AbstractFloat, f16*) */
    {CALL_WHY, 0, "clamp", 0, 3, {1, 2, RUNNING(6)}, 0, 37, 0x7086d5f3u,
     "(f16, f16, f16): chosen, ranks 7 2 0\n"},
    /* insertBits(AbstractInt, i32*, AbstractInt, u32) */
    {CALL_WHY, 0, "insertBits", 0, 4, {1, RUNNING(3), 1, 4}, 0, 44, 0x3cb3e92eu,
     "(i32, i32, u32, u32): chosen, ranks 3 0 4 0\n"},
    /* *(bool, bool) */
    {BINARY_WHY, 4, "", 0, 2, {0, 0}, 8, 12006, 0xddb73cfau,
     NULL},
    /* *(mat4x3<f32>, mat2x4<f32>) */
    {BINARY_WHY, 4, "", 0, 2, {17, 18}, 0, 46, 0x8cad4746u,
     "(mat4x3<f32>, mat2x4<f32>): chosen, ranks 0 0\n"},
    /* *(mat4x3<f32>, vec4<f32>) */
    {BINARY_WHY, 4, "", 0, 2, {17, 9}, 0, 44, 0xf3838cbcu,
     "(mat4x3<f32>, vec4<f32>): chosen, ranks 0 0\n"},
    /* *(vec3<AbstractFloat>, mat4x3<f32>) */
    {BINARY_WHY, 4, "", 0, 2, {11, 17}, 0, 44, 0xc040f82cu,
     "(vec3<f32>, mat4x3<f32>): chosen, ranks 1 0\n"},
    /* *(AbstractInt, mat3x3<AbstractFloat>) */
    {BINARY_WHY, 4, "", 0, 2, {1, 19}, 0, 58, 0x34f0ff04u,
     "(AbstractFloat, mat3x3<AbstractFloat>): chosen, ranks 5 0\n"},
    /* *(vec2<f32>, array<f32>) */
    {BINARY_WHY, 4, "", 0, 2, {7, 20}, 8, 13256, 0x07616cc3u,
     NULL},
    /* &(bool) */
    {UNARY_WHY, 3, "", 0, 1, {0}, 8, 62, 0xef51c442u,
     "operand 1 is bool, wanted is a reference, not in space handle\n"},
    /* arrayLength(bool) */
    {CALL_WHY, 0, "arrayLength", 0, 1, {0}, 8, 103, 0xf2fa4863u,
     "operand 1 is bool, wanted is a pointer in space storage, read or read_write, to an array without count\n"},
    /* workgroupUniformLoad(bool) */
    {CALL_WHY, 0, "workgroupUniformLoad", 0, 1, {0}, 8, 131, 0x97ec55c5u,
     "operand 1 is bool, wanted is a read_write pointer in space workgroup to an atomic, or to a type of fixed size with no atomic in it\n"},
    /* atomicLoad(bool) */
    {CALL_WHY, 0, "atomicLoad", 0, 1, {0}, 8, 93, 0xdb477092u,
     "operand 1 is bool, wanted is a read_write pointer in space storage or workgroup to an atomic\n"},
    /* *(bool) */
    {UNARY_WHY, 4, "", 0, 1, {0}, 8, 39, 0x7a1072c2u,
     "operand 1 is bool, wanted is a pointer\n"},
    /* &(AbstractInt) */
    {UNARY_WHY, 3, "", 0, 1, {1}, 8, 69, 0xcfd8bd89u,
     "operand 1 is AbstractInt, wanted is a reference, not in space handle\n"},
    /* arrayLength(AbstractInt) */
    {CALL_WHY, 0, "arrayLength", 0, 1, {1}, 8, 110, 0x941cf372u,
     "operand 1 is AbstractInt, wanted is a pointer in space storage, read or read_write, to an array without count\n"},
    /* workgroupUniformLoad(AbstractInt) */
    {CALL_WHY, 0, "workgroupUniformLoad", 0, 1, {1}, 8, 138, 0xe99440b4u,
     "operand 1 is AbstractInt, wanted is a read_write pointer in space workgroup to an atomic, or to a type of fixed size with no atomic in it\n"},
    /* atomicLoad(AbstractInt) */
    {CALL_WHY, 0, "atomicLoad", 0, 1, {1}, 8, 100, 0x517718e7u,
     "operand 1 is AbstractInt, wanted is a read_write pointer in space storage or workgroup to an atomic\n"},
    /* *(AbstractInt) */
    {UNARY_WHY, 4, "", 0, 1, {1}, 8, 46, 0x4a8eabf7u,
     "operand 1 is AbstractInt, wanted is a pointer\n"},
    /* &(AbstractFloat) */
    {UNARY_WHY, 3, "", 0, 1, {2}, 8, 71, 0x11926a4cu,
     "operand 1 is AbstractFloat, wanted is a reference, not in space handle\n"},
    /* arrayLength(AbstractFloat) */
    {CALL_WHY, 0, "arrayLength", 0, 1, {2}, 8, 112, 0x2c958465u,
     "operand 1 is AbstractFloat, wanted is a pointer in space storage, read or read_write, to an array without count\n"},
    /* workgroupUniformLoad(AbstractFloat) */
    {CALL_WHY, 0, "workgroupUniformLoad", 0, 1, {2}, 8, 140, 0x934fad9bu,
     "operand 1 is AbstractFloat, wanted is a read_write pointer in space workgroup to an atomic, or to a type of fixed size with no atomic in it\n"},
    /* atomicLoad(AbstractFloat) */
    {CALL_WHY, 0, "atomicLoad", 0, 1, {2}, 8, 102, 0x77916ea0u,
     "operand 1 is AbstractFloat, wanted is a read_write pointer in space storage or workgroup to an atomic\n"},
    /* *(AbstractFloat) */
    {UNARY_WHY, 4, "", 0, 1, {2}, 8, 48, 0xa772dc40u,
     "operand 1 is AbstractFloat, wanted is a pointer\n"},
    /* &(i32) */
    {UNARY_WHY, 3, "", 0, 1, {3}, 8, 61, 0x01eeaf4au,
     "operand 1 is i32, wanted is a reference, not in space handle\n"},
    /* arrayLength(i32) */
    {CALL_WHY, 0, "arrayLength", 0, 1, {3}, 8, 102, 0xe9a7fc9bu,
     "operand 1 is i32, wanted is a pointer in space storage, read or read_write, to an array without count\n"},
    /* workgroupUniformLoad(i32) */
    {CALL_WHY, 0, "workgroupUniformLoad", 0, 1, {3}, 8, 130, 0xae56534du,
     "operand 1 is i32, wanted is a read_write pointer in space workgroup to an atomic, or to a type of fixed size with no atomic in it\n"},
    /* atomicLoad(i32) */
    {CALL_WHY, 0, "atomicLoad", 0, 1, {3}, 8, 92, 0xc42820eau,
     "operand 1 is i32, wanted is a read_write pointer in space storage or workgroup to an atomic\n"},
    /* *(i32) */
    {UNARY_WHY, 4, "", 0, 1, {3}, 8, 38, 0x668b027au,
     "operand 1 is i32, wanted is a pointer\n"},
    /* &(u32) */
    {UNARY_WHY, 3, "", 0, 1, {4}, 8, 61, 0x708f001eu,
     "operand 1 is u32, wanted is a reference, not in space handle\n"},
    /* arrayLength(u32) */
    {CALL_WHY, 0, "arrayLength", 0, 1, {4}, 8, 102, 0xb0bfee7fu,
     "operand 1 is u32, wanted is a pointer in space storage, read or read_write, to an array without count\n"},
    /* workgroupUniformLoad(u32) */
    {CALL_WHY, 0, "workgroupUniformLoad", 0, 1, {4}, 8, 130, 0x8b5553a9u,
     "operand 1 is u32, wanted is a read_write pointer in space workgroup to an atomic, or to a type of fixed size with no atomic in it\n"},
    /* atomicLoad(u32) */
    {CALL_WHY, 0, "atomicLoad", 0, 1, {4}, 8, 92, 0x3bd094f6u,
     "operand 1 is u32, wanted is a read_write pointer in space storage or workgroup to an atomic\n"},
    /* *(u32) */
    {UNARY_WHY, 4, "", 0, 1, {4}, 8, 38, 0x18681f26u,
     "operand 1 is u32, wanted is a pointer\n"},
    /* &(f32) */
    {UNARY_WHY, 3, "", 0, 1, {5}, 8, 61, 0x5dd07511u,
     "operand 1 is f32, wanted is a reference, not in space handle\n"},
    /* arrayLength(f32) */
    {CALL_WHY, 0, "arrayLength", 0, 1, {5}, 8, 102, 0x60e4432au,
     "operand 1 is f32, wanted is a pointer in space storage, read or read_write, to an array without count\n"},
    /* workgroupUniformLoad(f32) */
    {CALL_WHY, 0, "workgroupUniformLoad", 0, 1, {5}, 8, 130, 0x1181801cu,
     "operand 1 is f32, wanted is a read_write pointer in space workgroup to an atomic, or to a type of fixed size with no atomic in it\n"},
    /* atomicLoad(f32) */
    {CALL_WHY, 0, "atomicLoad", 0, 1, {5}, 8, 92, 0xbc83503fu,
     "operand 1 is f32, wanted is a read_write pointer in space storage or workgroup to an atomic\n"},
    /* *(f32) */
    {UNARY_WHY, 4, "", 0, 1, {5}, 8, 38, 0xe74f51cfu,
     "operand 1 is f32, wanted is a pointer\n"},
    /* &(f16) */
    {UNARY_WHY, 3, "", 0, 1, {6}, 8, 61, 0xca3c6997u,
     "operand 1 is f16, wanted is a reference, not in space handle\n"},
    /* arrayLength(f16) */
    {CALL_WHY, 0, "arrayLength", 0, 1, {6}, 8, 102, 0x2be7ba48u,
     "operand 1 is f16, wanted is a pointer in space storage, read or read_write, to an array without count\n"},
    /* workgroupUniformLoad(f16) */
    {CALL_WHY, 0, "workgroupUniformLoad", 0, 1, {6}, 8, 130, 0xd4360126u,
     "operand 1 is f16, wanted is a read_write pointer in space workgroup to an atomic, or to a type of fixed size with no atomic in it\n"},
    /* atomicLoad(f16) */
    {CALL_WHY, 0, "atomicLoad", 0, 1, {6}, 8, 92, 0x29171e09u,
     "operand 1 is f16, wanted is a read_write pointer in space storage or workgroup to an atomic\n"},
    /* *(f16) */
    {UNARY_WHY, 4, "", 0, 1, {6}, 8, 38, 0x6c5d7699u,
     "operand 1 is f16, wanted is a pointer\n"},
    /* &(vec2<f32>) */
    {UNARY_WHY, 3, "", 0, 1, {7}, 8, 67, 0xbc4a3219u,
     "operand 1 is vec2<f32>, wanted is a reference, not in space handle\n"},
    /* arrayLength(vec2<f32>) */
    {CALL_WHY, 0, "arrayLength", 0, 1, {7}, 8, 108, 0x70955b22u,
     "operand 1 is vec2<f32>, wanted is a pointer in space storage, read or read_write, to an array without count\n"},
    /* workgroupUniformLoad(vec2<f32>) */
    {CALL_WHY, 0, "workgroupUniformLoad", 0, 1, {7}, 8, 136, 0x25d415e4u,
     "operand 1 is vec2<f32>, wanted is a read_write pointer in space workgroup to an atomic, or to a type of fixed size with no atomic in it\n"},
    /* atomicLoad(vec2<f32>) */
    {CALL_WHY, 0, "atomicLoad", 0, 1, {7}, 8, 98, 0x8ca37857u,
     "operand 1 is vec2<f32>, wanted is a read_write pointer in space storage or workgroup to an atomic\n"},
    /* *(vec2<f32>) */
    {UNARY_WHY, 4, "", 0, 1, {7}, 8, 44, 0x924f8827u,
     "operand 1 is vec2<f32>, wanted is a pointer\n"},
    /* &(vec3<f32>) */
    {UNARY_WHY, 3, "", 0, 1, {8}, 8, 67, 0x197bd1deu,
     "operand 1 is vec3<f32>, wanted is a reference, not in space handle\n"},
    /* arrayLength(vec3<f32>) */
    {CALL_WHY, 0, "arrayLength", 0, 1, {8}, 8, 108, 0x9d54bb3fu,
     "operand 1 is vec3<f32>, wanted is a pointer in space storage, read or read_write, to an array without count\n"},
    /* workgroupUniformLoad(vec3<f32>) */
    {CALL_WHY, 0, "workgroupUniformLoad", 0, 1, {8}, 8, 136, 0x88576be9u,
     "operand 1 is vec3<f32>, wanted is a read_write pointer in space workgroup to an atomic, or to a type of fixed size with no atomic in it\n"},
    /* atomicLoad(vec3<f32>) */
    {CALL_WHY, 0, "atomicLoad", 0, 1, {8}, 8, 98, 0x977d61b6u,
     "operand 1 is vec3<f32>, wanted is a read_write pointer in space storage or workgroup to an atomic\n"},
    /* *(vec3<f32>) */
    {UNARY_WHY, 4, "", 0, 1, {8}, 8, 44, 0xc5bc7b66u,
     "operand 1 is vec3<f32>, wanted is a pointer\n"},
    /* &(vec4<f32>) */
    {UNARY_WHY, 3, "", 0, 1, {9}, 8, 67, 0x3b0a22ebu,
     "operand 1 is vec4<f32>, wanted is a reference, not in space handle\n"},
    /* arrayLength(vec4<f32>) */
    {CALL_WHY, 0, "arrayLength", 0, 1, {9}, 8, 108, 0xf773ecccu,
     "operand 1 is vec4<f32>, wanted is a pointer in space storage, read or read_write, to an array without count\n"},
    /* workgroupUniformLoad(vec4<f32>) */
    {CALL_WHY, 0, "workgroupUniformLoad", 0, 1, {9}, 8, 136, 0xf0125a42u,
     "operand 1 is vec4<f32>, wanted is a read_write pointer in space workgroup to an atomic, or to a type of fixed size with no atomic in it\n"},
    /* atomicLoad(vec4<f32>) */
    {CALL_WHY, 0, "atomicLoad", 0, 1, {9}, 8, 98, 0x5aecc9c5u,
     "operand 1 is vec4<f32>, wanted is a read_write pointer in space storage or workgroup to an atomic\n"},
    /* *(vec4<f32>) */
    {UNARY_WHY, 4, "", 0, 1, {9}, 8, 44, 0x8dcba6e5u,
     "operand 1 is vec4<f32>, wanted is a pointer\n"},
    /* &(vec2<AbstractInt>) */
    {UNARY_WHY, 3, "", 0, 1, {10}, 8, 75, 0x19feef31u,
     "operand 1 is vec2<AbstractInt>, wanted is a reference, not in space handle\n"},
    /* arrayLength(vec2<AbstractInt>) */
    {CALL_WHY, 0, "arrayLength", 0, 1, {10}, 8, 116, 0x55c1f18au,
     "operand 1 is vec2<AbstractInt>, wanted is a pointer in space storage, read or read_write, to an array without count\n"},
    /* workgroupUniformLoad(vec2<AbstractInt>) */
    {CALL_WHY, 0, "workgroupUniformLoad", 0, 1, {10}, 8, 144, 0x6b91f07cu,
     "operand 1 is vec2<AbstractInt>, wanted is a read_write pointer in space workgroup to an atomic, or to a type of fixed size with no atomic in it\n"},
    /* atomicLoad(vec2<AbstractInt>) */
    {CALL_WHY, 0, "atomicLoad", 0, 1, {10}, 8, 106, 0xc64f3c9fu,
     "operand 1 is vec2<AbstractInt>, wanted is a read_write pointer in space storage or workgroup to an atomic\n"},
    /* *(vec2<AbstractInt>) */
    {UNARY_WHY, 4, "", 0, 1, {10}, 8, 52, 0x23499f6fu,
     "operand 1 is vec2<AbstractInt>, wanted is a pointer\n"},
    /* &(vec3<AbstractFloat>) */
    {UNARY_WHY, 3, "", 0, 1, {11}, 8, 77, 0xf8fffe99u,
     "operand 1 is vec3<AbstractFloat>, wanted is a reference, not in space handle\n"},
    /* arrayLength(vec3<AbstractFloat>) */
    {CALL_WHY, 0, "arrayLength", 0, 1, {11}, 8, 118, 0x876338a2u,
     "operand 1 is vec3<AbstractFloat>, wanted is a pointer in space storage, read or read_write, to an array without count\n"},
    /* workgroupUniformLoad(vec3<AbstractFloat>) */
    {CALL_WHY, 0, "workgroupUniformLoad", 0, 1, {11}, 8, 146, 0xb007db64u,
     "operand 1 is vec3<AbstractFloat>, wanted is a read_write pointer in space workgroup to an atomic, or to a type of fixed size with no atomic in it\n"},
    /* atomicLoad(vec3<AbstractFloat>) */
    {CALL_WHY, 0, "atomicLoad", 0, 1, {11}, 8, 108, 0x43cf09d7u,
     "operand 1 is vec3<AbstractFloat>, wanted is a read_write pointer in space storage or workgroup to an atomic\n"},
    /* *(vec3<AbstractFloat>) */
    {UNARY_WHY, 4, "", 0, 1, {11}, 8, 54, 0xf4c3e5a7u,
     "operand 1 is vec3<AbstractFloat>, wanted is a pointer\n"},
    /* &(vec4<i32>) */
    {UNARY_WHY, 3, "", 0, 1, {12}, 8, 67, 0xef9123d6u,
     "operand 1 is vec4<i32>, wanted is a reference, not in space handle\n"},
    /* arrayLength(vec4<i32>) */
    {CALL_WHY, 0, "arrayLength", 0, 1, {12}, 8, 108, 0x2a907567u,
     "operand 1 is vec4<i32>, wanted is a pointer in space storage, read or read_write, to an array without count\n"},
    /* workgroupUniformLoad(vec4<i32>) */
    {CALL_WHY, 0, "workgroupUniformLoad", 0, 1, {12}, 8, 136, 0x429bbc01u,
     "operand 1 is vec4<i32>, wanted is a read_write pointer in space workgroup to an atomic, or to a type of fixed size with no atomic in it\n"},
    /* atomicLoad(vec4<i32>) */
    {CALL_WHY, 0, "atomicLoad", 0, 1, {12}, 8, 98, 0x289d975eu,
     "operand 1 is vec4<i32>, wanted is a read_write pointer in space storage or workgroup to an atomic\n"},
    /* *(vec4<i32>) */
    {UNARY_WHY, 4, "", 0, 1, {12}, 8, 44, 0x3b95ab6eu,
     "operand 1 is vec4<i32>, wanted is a pointer\n"},
    /* &(vec4<u32>) */
    {UNARY_WHY, 3, "", 0, 1, {13}, 8, 67, 0x8a1233dau,
     "operand 1 is vec4<u32>, wanted is a reference, not in space handle\n"},
    /* arrayLength(vec4<u32>) */
    {CALL_WHY, 0, "arrayLength", 0, 1, {13}, 8, 108, 0x0ef7980bu,
     "operand 1 is vec4<u32>, wanted is a pointer in space storage, read or read_write, to an array without count\n"},
    /* workgroupUniformLoad(vec4<u32>) */
    {CALL_WHY, 0, "workgroupUniformLoad", 0, 1, {13}, 8, 136, 0xa1d5fc3du,
     "operand 1 is vec4<u32>, wanted is a read_write pointer in space workgroup to an atomic, or to a type of fixed size with no atomic in it\n"},
    /* atomicLoad(vec4<u32>) */
    {CALL_WHY, 0, "atomicLoad", 0, 1, {13}, 8, 98, 0x0f67435au,
     "operand 1 is vec4<u32>, wanted is a read_write pointer in space storage or workgroup to an atomic\n"},
    /* *(vec4<u32>) */
    {UNARY_WHY, 4, "", 0, 1, {13}, 8, 44, 0x34475e6au,
     "operand 1 is vec4<u32>, wanted is a pointer\n"},
    /* &(vec2<u32>) */
    {UNARY_WHY, 3, "", 0, 1, {14}, 8, 67, 0x7125fe94u,
     "operand 1 is vec2<u32>, wanted is a reference, not in space handle\n"},
    /* arrayLength(vec2<u32>) */
    {CALL_WHY, 0, "arrayLength", 0, 1, {14}, 8, 108, 0x0925f6fdu,
     "operand 1 is vec2<u32>, wanted is a pointer in space storage, read or read_write, to an array without count\n"},
    /* workgroupUniformLoad(vec2<u32>) */
    {CALL_WHY, 0, "workgroupUniformLoad", 0, 1, {14}, 8, 136, 0x41eb64e3u,
     "operand 1 is vec2<u32>, wanted is a read_write pointer in space workgroup to an atomic, or to a type of fixed size with no atomic in it\n"},
    /* atomicLoad(vec2<u32>) */
    {CALL_WHY, 0, "atomicLoad", 0, 1, {14}, 8, 98, 0xe6d34ed8u,
     "operand 1 is vec2<u32>, wanted is a read_write pointer in space storage or workgroup to an atomic\n"},
    /* *(vec2<u32>) */
    {UNARY_WHY, 4, "", 0, 1, {14}, 8, 44, 0x85b557b8u,
     "operand 1 is vec2<u32>, wanted is a pointer\n"},
    /* &(vec2<bool>) */
    {UNARY_WHY, 3, "", 0, 1, {15}, 8, 68, 0x2bbe9a50u,
     "operand 1 is vec2<bool>, wanted is a reference, not in space handle\n"},
    /* arrayLength(vec2<bool>) */
    {CALL_WHY, 0, "arrayLength", 0, 1, {15}, 8, 109, 0xb7531159u,
     "operand 1 is vec2<bool>, wanted is a pointer in space storage, read or read_write, to an array without count\n"},
    /* workgroupUniformLoad(vec2<bool>) */
    {CALL_WHY, 0, "workgroupUniformLoad", 0, 1, {15}, 8, 137, 0xeb536537u,
     "operand 1 is vec2<bool>, wanted is a read_write pointer in space workgroup to an atomic, or to a type of fixed size with no atomic in it\n"},
    /* atomicLoad(vec2<bool>) */
    {CALL_WHY, 0, "atomicLoad", 0, 1, {15}, 8, 99, 0x3ea85bacu,
     "operand 1 is vec2<bool>, wanted is a read_write pointer in space storage or workgroup to an atomic\n"},
    /* *(vec2<bool>) */
    {UNARY_WHY, 4, "", 0, 1, {15}, 8, 45, 0x049b9fecu,
     "operand 1 is vec2<bool>, wanted is a pointer\n"},
    /* &(mat2x2<f32>) */
    {UNARY_WHY, 3, "", 0, 1, {16}, 8, 69, 0x61870ea7u,
     "operand 1 is mat2x2<f32>, wanted is a reference, not in space handle\n"},
    /* arrayLength(mat2x2<f32>) */
    {CALL_WHY, 0, "arrayLength", 0, 1, {16}, 8, 110, 0x6f7b6bb8u,
     "operand 1 is mat2x2<f32>, wanted is a pointer in space storage, read or read_write, to an array without count\n"},
    /* workgroupUniformLoad(mat2x2<f32>) */
    {CALL_WHY, 0, "workgroupUniformLoad", 0, 1, {16}, 8, 138, 0xb580c0d6u,
     "operand 1 is mat2x2<f32>, wanted is a read_write pointer in space workgroup to an atomic, or to a type of fixed size with no atomic in it\n"},
    /* atomicLoad(mat2x2<f32>) */
    {CALL_WHY, 0, "atomicLoad", 0, 1, {16}, 8, 100, 0xd73f5df9u,
     "operand 1 is mat2x2<f32>, wanted is a read_write pointer in space storage or workgroup to an atomic\n"},
    /* *(mat2x2<f32>) */
    {UNARY_WHY, 4, "", 0, 1, {16}, 8, 46, 0xe7411089u,
     "operand 1 is mat2x2<f32>, wanted is a pointer\n"},
    /* &(mat4x3<f32>) */
    {UNARY_WHY, 3, "", 0, 1, {17}, 8, 69, 0xd564ed42u,
     "operand 1 is mat4x3<f32>, wanted is a reference, not in space handle\n"},
    /* arrayLength(mat4x3<f32>) */
    {CALL_WHY, 0, "arrayLength", 0, 1, {17}, 8, 110, 0x483bb363u,
     "operand 1 is mat4x3<f32>, wanted is a pointer in space storage, read or read_write, to an array without count\n"},
    /* workgroupUniformLoad(mat4x3<f32>) */
    {CALL_WHY, 0, "workgroupUniformLoad", 0, 1, {17}, 8, 138, 0x431690c5u,
     "operand 1 is mat4x3<f32>, wanted is a read_write pointer in space workgroup to an atomic, or to a type of fixed size with no atomic in it\n"},
    /* atomicLoad(mat4x3<f32>) */
    {CALL_WHY, 0, "atomicLoad", 0, 1, {17}, 8, 100, 0x832ac392u,
     "operand 1 is mat4x3<f32>, wanted is a read_write pointer in space storage or workgroup to an atomic\n"},
    /* *(mat4x3<f32>) */
    {UNARY_WHY, 4, "", 0, 1, {17}, 8, 46, 0xe16eddc2u,
     "operand 1 is mat4x3<f32>, wanted is a pointer\n"},
    /* &(mat2x4<f32>) */
    {UNARY_WHY, 3, "", 0, 1, {18}, 8, 69, 0xbe92b34du,
     "operand 1 is mat2x4<f32>, wanted is a reference, not in space handle\n"},
    /* arrayLength(mat2x4<f32>) */
    {CALL_WHY, 0, "arrayLength", 0, 1, {18}, 8, 110, 0xe2d8b186u,
     "operand 1 is mat2x4<f32>, wanted is a pointer in space storage, read or read_write, to an array without count\n"},
    /* workgroupUniformLoad(mat2x4<f32>) */
    {CALL_WHY, 0, "workgroupUniformLoad", 0, 1, {18}, 8, 138, 0xfea901a0u,
     "operand 1 is mat2x4<f32>, wanted is a read_write pointer in space workgroup to an atomic, or to a type of fixed size with no atomic in it\n"},
    /* atomicLoad(mat2x4<f32>) */
    {CALL_WHY, 0, "atomicLoad", 0, 1, {18}, 8, 100, 0x0d6e8623u,
     "operand 1 is mat2x4<f32>, wanted is a read_write pointer in space storage or workgroup to an atomic\n"},
    /* *(mat2x4<f32>) */
    {UNARY_WHY, 4, "", 0, 1, {18}, 8, 46, 0x329d7773u,
     "operand 1 is mat2x4<f32>, wanted is a pointer\n"},
    /* &(mat3x3<AbstractFloat>) */
    {UNARY_WHY, 3, "", 0, 1, {19}, 8, 79, 0xf25a9e9cu,
     "operand 1 is mat3x3<AbstractFloat>, wanted is a reference, not in space handle\n"},
    /* arrayLength(mat3x3<AbstractFloat>) */
    {CALL_WHY, 0, "arrayLength", 0, 1, {19}, 8, 120, 0xa2a72a95u,
     "operand 1 is mat3x3<AbstractFloat>, wanted is a pointer in space storage, read or read_write, to an array without count\n"},
    /* workgroupUniformLoad(mat3x3<AbstractFloat>) */
    {CALL_WHY, 0, "workgroupUniformLoad", 0, 1, {19}, 8, 148, 0x8083ec0bu,
     "operand 1 is mat3x3<AbstractFloat>, wanted is a read_write pointer in space workgroup to an atomic, or to a type of fixed size with no atomic in it\n"},
    /* atomicLoad(mat3x3<AbstractFloat>) */
    {CALL_WHY, 0, "atomicLoad", 0, 1, {19}, 8, 110, 0x2efc2410u,
     "operand 1 is mat3x3<AbstractFloat>, wanted is a read_write pointer in space storage or workgroup to an atomic\n"},
    /* *(mat3x3<AbstractFloat>) */
    {UNARY_WHY, 4, "", 0, 1, {19}, 8, 56, 0x860bd070u,
     "operand 1 is mat3x3<AbstractFloat>, wanted is a pointer\n"},
    /* &(array<f32>) */
    {UNARY_WHY, 3, "", 0, 1, {20}, 8, 68, 0x21ae40aau,
     "operand 1 is array<f32>, wanted is a reference, not in space handle\n"},
    /* arrayLength(array<f32>) */
    {CALL_WHY, 0, "arrayLength", 0, 1, {20}, 8, 109, 0x21f5493bu,
     "operand 1 is array<f32>, wanted is a pointer in space storage, read or read_write, to an array without count\n"},
    /* workgroupUniformLoad(array<f32>) */
    {CALL_WHY, 0, "workgroupUniformLoad", 0, 1, {20}, 8, 137, 0xad54e16du,
     "operand 1 is array<f32>, wanted is a read_write pointer in space workgroup to an atomic, or to a type of fixed size with no atomic in it\n"},
    /* atomicLoad(array<f32>) */
    {CALL_WHY, 0, "atomicLoad", 0, 1, {20}, 8, 99, 0x9d30cf8au,
     "operand 1 is array<f32>, wanted is a read_write pointer in space storage or workgroup to an atomic\n"},
    /* *(array<f32>) */
    {UNARY_WHY, 4, "", 0, 1, {20}, 8, 45, 0x48ced6dau,
     "operand 1 is array<f32>, wanted is a pointer\n"},
    /* &(array<f32,4>) */
    {UNARY_WHY, 3, "", 0, 1, {21}, 8, 70, 0xb31324f2u,
     "operand 1 is array<f32,4>, wanted is a reference, not in space handle\n"},
    /* arrayLength(array<f32,4>) */
    {CALL_WHY, 0, "arrayLength", 0, 1, {21}, 8, 111, 0xc87f65b3u,
     "operand 1 is array<f32,4>, wanted is a pointer in space storage, read or read_write, to an array without count\n"},
    /* workgroupUniformLoad(array<f32,4>) */
    {CALL_WHY, 0, "workgroupUniformLoad", 0, 1, {21}, 8, 139, 0x790199d5u,
     "operand 1 is array<f32,4>, wanted is a read_write pointer in space workgroup to an atomic, or to a type of fixed size with no atomic in it\n"},
    /* atomicLoad(array<f32,4>) */
    {CALL_WHY, 0, "atomicLoad", 0, 1, {21}, 8, 101, 0x54177e22u,
     "operand 1 is array<f32,4>, wanted is a read_write pointer in space storage or workgroup to an atomic\n"},
    /* *(array<f32,4>) */
    {UNARY_WHY, 4, "", 0, 1, {21}, 8, 47, 0x69f2c4d2u,
     "operand 1 is array<f32,4>, wanted is a pointer\n"},
    /* &(array<AbstractFloat,4294967295>) */
    {UNARY_WHY, 3, "", 0, 1, {22}, 8, 89, 0xa19d14c6u,
     "operand 1 is array<AbstractFloat,4294967295>, wanted is a reference, not in space handle\n"},
    /* arrayLength(array<AbstractFloat,4294967295>) */
    {CALL_WHY, 0, "arrayLength", 0, 1, {22}, 8, 130, 0x4d58ecb7u,
     "operand 1 is array<AbstractFloat,4294967295>, wanted is a pointer in space storage, read or read_write, to an array without count\n"},
    /* workgroupUniformLoad(array<AbstractFloat,4294967295>) */
    {CALL_WHY, 0, "workgroupUniformLoad", 0, 1, {22}, 8, 158, 0x134c5411u,
     "operand 1 is array<AbstractFloat,4294967295>, wanted is a read_write pointer in space workgroup to an atomic, or to a type of fixed size with no atomic in it\n"},
    /* atomicLoad(array<AbstractFloat,4294967295>) */
    {CALL_WHY, 0, "atomicLoad", 0, 1, {22}, 8, 120, 0x94c9042eu,
     "operand 1 is array<AbstractFloat,4294967295>, wanted is a read_write pointer in space storage or workgroup to an atomic\n"},
    /* *(array<AbstractFloat,4294967295>) */
    {UNARY_WHY, 4, "", 0, 1, {22}, 8, 66, 0xe0c5543eu,
     "operand 1 is array<AbstractFloat,4294967295>, wanted is a pointer\n"},
    /* &(atomic<i32>) */
    {UNARY_WHY, 3, "", 0, 1, {23}, 8, 69, 0x3970d289u,
     "operand 1 is atomic<i32>, wanted is a reference, not in space handle\n"},
    /* arrayLength(atomic<i32>) */
    {CALL_WHY, 0, "arrayLength", 0, 1, {23}, 8, 110, 0x47dc6272u,
     "operand 1 is atomic<i32>, wanted is a pointer in space storage, read or read_write, to an array without count\n"},
    /* workgroupUniformLoad(atomic<i32>) */
    {CALL_WHY, 0, "workgroupUniformLoad", 0, 1, {23}, 8, 138, 0xbfd63fb4u,
     "operand 1 is atomic<i32>, wanted is a read_write pointer in space workgroup to an atomic, or to a type of fixed size with no atomic in it\n"},
    /* atomicLoad(atomic<i32>) */
    {CALL_WHY, 0, "atomicLoad", 0, 1, {23}, 8, 100, 0x98c74fe7u,
     "operand 1 is atomic<i32>, wanted is a read_write pointer in space storage or workgroup to an atomic\n"},
    /* *(atomic<i32>) */
    {UNARY_WHY, 4, "", 0, 1, {23}, 8, 46, 0x34c71af7u,
     "operand 1 is atomic<i32>, wanted is a pointer\n"},
    /* &(atomic<u32>) */
    {UNARY_WHY, 3, "", 0, 1, {24}, 8, 69, 0x32ac74ddu,
     "operand 1 is atomic<u32>, wanted is a reference, not in space handle\n"},
    /* arrayLength(atomic<u32>) */
    {CALL_WHY, 0, "arrayLength", 0, 1, {24}, 8, 110, 0x54209236u,
     "operand 1 is atomic<u32>, wanted is a pointer in space storage, read or read_write, to an array without count\n"},
    /* workgroupUniformLoad(atomic<u32>) */
    {CALL_WHY, 0, "workgroupUniformLoad", 0, 1, {24}, 8, 138, 0xeffd0850u,
     "operand 1 is atomic<u32>, wanted is a read_write pointer in space workgroup to an atomic, or to a type of fixed size with no atomic in it\n"},
    /* atomicLoad(atomic<u32>) */
    {CALL_WHY, 0, "atomicLoad", 0, 1, {24}, 8, 100, 0xae5b4053u,
     "operand 1 is atomic<u32>, wanted is a read_write pointer in space storage or workgroup to an atomic\n"},
    /* *(atomic<u32>) */
    {UNARY_WHY, 4, "", 0, 1, {24}, 8, 46, 0xc93b3b23u,
     "operand 1 is atomic<u32>, wanted is a pointer\n"},
    /* &(array<atomic<u32>,2>) */
    {UNARY_WHY, 3, "", 0, 1, {25}, 8, 78, 0x631fe798u,
     "operand 1 is array<atomic<u32>,2>, wanted is a reference, not in space handle\n"},
    /* arrayLength(array<atomic<u32>,2>) */
    {CALL_WHY, 0, "arrayLength", 0, 1, {25}, 8, 119, 0x3b2e7331u,
     "operand 1 is array<atomic<u32>,2>, wanted is a pointer in space storage, read or read_write, to an array without count\n"},
    /* workgroupUniformLoad(array<atomic<u32>,2>) */
    {CALL_WHY, 0, "workgroupUniformLoad", 0, 1, {25}, 8, 147, 0x8b88e95fu,
     "operand 1 is array<atomic<u32>,2>, wanted is a read_write pointer in space workgroup to an atomic, or to a type of fixed size with no atomic in it\n"},
    /* atomicLoad(array<atomic<u32>,2>) */
    {CALL_WHY, 0, "atomicLoad", 0, 1, {25}, 8, 109, 0xa86f8384u,
     "operand 1 is array<atomic<u32>,2>, wanted is a read_write pointer in space storage or workgroup to an atomic\n"},
    /* *(array<atomic<u32>,2>) */
    {UNARY_WHY, 4, "", 0, 1, {25}, 8, 55, 0x69a1e0a4u,
     "operand 1 is array<atomic<u32>,2>, wanted is a pointer\n"},
    /* &(__atomic_compare_exchange_result<i32>) */
    {UNARY_WHY, 3, "", 0, 1, {26}, 8, 95, 0x2a80f623u,
     "operand 1 is __atomic_compare_exchange_result<i32>, wanted is a reference, not in space handle\n"},
    /* arrayLength(__atomic_compare_exchange_result<i32>) */
    {CALL_WHY, 0, "arrayLength", 0, 1, {26}, 8, 136, 0x2ae7bc74u,
     "operand 1 is __atomic_compare_exchange_result<i32>, wanted is a pointer in space storage, read or read_write, to an array without count\n"},
    /* workgroupUniformLoad(__atomic_compare_exchange_result<i32>) */
    {CALL_WHY, 0, "workgroupUniformLoad", 0, 1, {26}, 8, 164, 0x02a696fau,
     "operand 1 is __atomic_compare_exchange_result<i32>, wanted is a read_write pointer in space workgroup to an atomic, or to a type of fixed size with no atomic in it\n"},
    /* atomicLoad(__atomic_compare_exchange_result<i32>) */
    {CALL_WHY, 0, "atomicLoad", 0, 1, {26}, 8, 126, 0x34c9772du,
     "operand 1 is __atomic_compare_exchange_result<i32>, wanted is a read_write pointer in space storage or workgroup to an atomic\n"},
    /* *(__atomic_compare_exchange_result<i32>) */
    {UNARY_WHY, 4, "", 0, 1, {26}, 8, 72, 0x46b1378du,
     "operand 1 is __atomic_compare_exchange_result<i32>, wanted is a pointer\n"},
    /* &(__frexp_result_f16) */
    {UNARY_WHY, 3, "", 0, 1, {27}, 8, 76, 0x66eb104du,
     "operand 1 is __frexp_result_f16, wanted is a reference, not in space handle\n"},
    /* arrayLength(__frexp_result_f16) */
    {CALL_WHY, 0, "arrayLength", 0, 1, {27}, 8, 117, 0xd6287886u,
     "operand 1 is __frexp_result_f16, wanted is a pointer in space storage, read or read_write, to an array without count\n"},
    /* workgroupUniformLoad(__frexp_result_f16) */
    {CALL_WHY, 0, "workgroupUniformLoad", 0, 1, {27}, 8, 145, 0x03f1d8a0u,
     "operand 1 is __frexp_result_f16, wanted is a read_write pointer in space workgroup to an atomic, or to a type of fixed size with no atomic in it\n"},
    /* atomicLoad(__frexp_result_f16) */
    {CALL_WHY, 0, "atomicLoad", 0, 1, {27}, 8, 107, 0x93f65523u,
     "operand 1 is __frexp_result_f16, wanted is a read_write pointer in space storage or workgroup to an atomic\n"},
    /* *(__frexp_result_f16) */
    {UNARY_WHY, 4, "", 0, 1, {27}, 8, 53, 0x604e3e73u,
     "operand 1 is __frexp_result_f16, wanted is a pointer\n"},
    /* &(__modf_result_vec3_abstract) */
    {UNARY_WHY, 3, "", 0, 1, {28}, 8, 85, 0xcc123aefu,
     "operand 1 is __modf_result_vec3_abstract, wanted is a reference, not in space handle\n"},
    /* arrayLength(__modf_result_vec3_abstract) */
    {CALL_WHY, 0, "arrayLength", 0, 1, {28}, 8, 126, 0x79363ef0u,
     "operand 1 is __modf_result_vec3_abstract, wanted is a pointer in space storage, read or read_write, to an array without count\n"},
    /* workgroupUniformLoad(__modf_result_vec3_abstract) */
    {CALL_WHY, 0, "workgroupUniformLoad", 0, 1, {28}, 8, 154, 0x151ab4feu,
     "operand 1 is __modf_result_vec3_abstract, wanted is a read_write pointer in space workgroup to an atomic, or to a type of fixed size with no atomic in it\n"},
    /* atomicLoad(__modf_result_vec3_abstract) */
    {CALL_WHY, 0, "atomicLoad", 0, 1, {28}, 8, 116, 0x4b1b38d1u,
     "operand 1 is __modf_result_vec3_abstract, wanted is a read_write pointer in space storage or workgroup to an atomic\n"},
    /* *(__modf_result_vec3_abstract) */
    {UNARY_WHY, 4, "", 0, 1, {28}, 8, 62, 0x74eae361u,
     "operand 1 is __modf_result_vec3_abstract, wanted is a pointer\n"},
    /* &(ptr<storage,atomic<i32>,read_write>) */
    {UNARY_WHY, 3, "", 0, 1, {29}, 8, 93, 0x52e531e6u,
     "operand 1 is ptr<storage,atomic<i32>,read_write>, wanted is a reference, not in space handle\n"},
    /* arrayLength(ptr<storage,atomic<i32>,read_write>) */
    {CALL_WHY, 0, "arrayLength", 0, 1, {29}, 8, 134, 0xacfc9e17u,
     "operand 1 is ptr<storage,atomic<i32>,read_write>, wanted is a pointer in space storage, read or read_write, to an array without count\n"},
    /* workgroupUniformLoad(ptr<storage,atomic<i32>,read_write>) */
    {CALL_WHY, 0, "workgroupUniformLoad", 0, 1, {29}, 8, 162, 0x943b3771u,
     "operand 1 is ptr<storage,atomic<i32>,read_write>, wanted is a read_write pointer in space workgroup to an atomic, or to a type of fixed size with no atomic in it\n"},
    /* atomicLoad(ptr<storage,atomic<i32>,read_write>) */
    {CALL_WHY, 0, "atomicLoad", 0, 1, {29}, 0, 0, 0x811c9dc5u,
     ""},
    /* *(ptr<storage,atomic<i32>,read_write>) */
    {UNARY_WHY, 4, "", 0, 1, {29}, 0, 0, 0x811c9dc5u,
     ""},
    /* &(ptr<workgroup,atomic<u32>,read_write>) */
    {UNARY_WHY, 3, "", 0, 1, {30}, 8, 95, 0xe61f4b75u,
     "operand 1 is ptr<workgroup,atomic<u32>,read_write>, wanted is a reference, not in space handle\n"},
    /* arrayLength(ptr<workgroup,atomic<u32>,read_write>) */
    {CALL_WHY, 0, "arrayLength", 0, 1, {30}, 8, 136, 0x9439f8deu,
     "operand 1 is ptr<workgroup,atomic<u32>,read_write>, wanted is a pointer in space storage, read or read_write, to an array without count\n"},
    /* workgroupUniformLoad(ptr<workgroup,atomic<u32>,read_write>) */
    {CALL_WHY, 0, "workgroupUniformLoad", 0, 1, {30}, 0, 0, 0x811c9dc5u,
     ""},
    /* atomicLoad(ptr<workgroup,atomic<u32>,read_write>) */
    {CALL_WHY, 0, "atomicLoad", 0, 1, {30}, 0, 0, 0x811c9dc5u,
     ""},
    /* *(ptr<workgroup,atomic<u32>,read_write>) */
    {UNARY_WHY, 4, "", 0, 1, {30}, 0, 0, 0x811c9dc5u,
     ""},
    /* &(ptr<storage,atomic<u32>,read>) */
    {UNARY_WHY, 3, "", 0, 1, {31}, 8, 87, 0x00da676eu,
     "operand 1 is ptr<storage,atomic<u32>,read>, wanted is a reference, not in space handle\n"},
    /* arrayLength(ptr<storage,atomic<u32>,read>) */
    {CALL_WHY, 0, "arrayLength", 0, 1, {31}, 8, 128, 0xbff6df2fu,
     "operand 1 is ptr<storage,atomic<u32>,read>, wanted is a pointer in space storage, read or read_write, to an array without count\n"},
    /* workgroupUniformLoad(ptr<storage,atomic<u32>,read>) */
    {CALL_WHY, 0, "workgroupUniformLoad", 0, 1, {31}, 8, 156, 0x3620bd19u,
     "operand 1 is ptr<storage,atomic<u32>,read>, wanted is a read_write pointer in space workgroup to an atomic, or to a type of fixed size with no atomic in it\n"},
    /* atomicLoad(ptr<storage,atomic<u32>,read>) */
    {CALL_WHY, 0, "atomicLoad", 0, 1, {31}, 8, 118, 0x4a245da6u,
     "operand 1 is ptr<storage,atomic<u32>,read>, wanted is a read_write pointer in space storage or workgroup to an atomic\n"},
    /* *(ptr<storage,atomic<u32>,read>) */
    {UNARY_WHY, 4, "", 0, 1, {31}, 0, 0, 0x811c9dc5u,
     ""},
    /* &(ptr<workgroup,atomic<i32>,write>) */
    {UNARY_WHY, 3, "", 0, 1, {32}, 8, 90, 0xe3a9bac6u,
     "operand 1 is ptr<workgroup,atomic<i32>,write>, wanted is a reference, not in space handle\n"},
    /* arrayLength(ptr<workgroup,atomic<i32>,write>) */
    {CALL_WHY, 0, "arrayLength", 0, 1, {32}, 8, 131, 0x440b7eb7u,
     "operand 1 is ptr<workgroup,atomic<i32>,write>, wanted is a pointer in space storage, read or read_write, to an array without count\n"},
    /* workgroupUniformLoad(ptr<workgroup,atomic<i32>,write>) */
    {CALL_WHY, 0, "workgroupUniformLoad", 0, 1, {32}, 8, 159, 0x61bac611u,
     "operand 1 is ptr<workgroup,atomic<i32>,write>, wanted is a read_write pointer in space workgroup to an atomic, or to a type of fixed size with no atomic in it\n"},
    /* atomicLoad(ptr<workgroup,atomic<i32>,write>) */
    {CALL_WHY, 0, "atomicLoad", 0, 1, {32}, 8, 121, 0xf8f2862eu,
     "operand 1 is ptr<workgroup,atomic<i32>,write>, wanted is a read_write pointer in space storage or workgroup to an atomic\n"},
    /* *(ptr<workgroup,atomic<i32>,write>) */
    {UNARY_WHY, 4, "", 0, 1, {32}, 0, 0, 0x811c9dc5u,
     ""},
    /* &(ptr<private,atomic<u32>,read_write>) */
    {UNARY_WHY, 3, "", 0, 1, {33}, 8, 93, 0xd4543e60u,
     "operand 1 is ptr<private,atomic<u32>,read_write>, wanted is a reference, not in space handle\n"},
    /* arrayLength(ptr<private,atomic<u32>,read_write>) */
    {CALL_WHY, 0, "arrayLength", 0, 1, {33}, 8, 134, 0x39e63c09u,
     "operand 1 is ptr<private,atomic<u32>,read_write>, wanted is a pointer in space storage, read or read_write, to an array without count\n"},
    /* workgroupUniformLoad(ptr<private,atomic<u32>,read_write>) */
    {CALL_WHY, 0, "workgroupUniformLoad", 0, 1, {33}, 8, 162, 0x6bb10667u,
     "operand 1 is ptr<private,atomic<u32>,read_write>, wanted is a read_write pointer in space workgroup to an atomic, or to a type of fixed size with no atomic in it\n"},
    /* atomicLoad(ptr<private,atomic<u32>,read_write>) */
    {CALL_WHY, 0, "atomicLoad", 0, 1, {33}, 8, 124, 0xd50a141cu,
     "operand 1 is ptr<private,atomic<u32>,read_write>, wanted is a read_write pointer in space storage or workgroup to an atomic\n"},
    /* *(ptr<private,atomic<u32>,read_write>) */
    {UNARY_WHY, 4, "", 0, 1, {33}, 0, 0, 0x811c9dc5u,
     ""},
    /* &(ptr<storage,u32,read_write>) */
    {UNARY_WHY, 3, "", 0, 1, {34}, 8, 85, 0x17156511u,
     "operand 1 is ptr<storage,u32,read_write>, wanted is a reference, not in space handle\n"},
    /* arrayLength(ptr<storage,u32,read_write>) */
    {CALL_WHY, 0, "arrayLength", 0, 1, {34}, 8, 126, 0x257c132au,
     "operand 1 is ptr<storage,u32,read_write>, wanted is a pointer in space storage, read or read_write, to an array without count\n"},
    /* workgroupUniformLoad(ptr<storage,u32,read_write>) */
    {CALL_WHY, 0, "workgroupUniformLoad", 0, 1, {34}, 8, 154, 0x56e4501cu,
     "operand 1 is ptr<storage,u32,read_write>, wanted is a read_write pointer in space workgroup to an atomic, or to a type of fixed size with no atomic in it\n"},
    /* atomicLoad(ptr<storage,u32,read_write>) */
    {CALL_WHY, 0, "atomicLoad", 0, 1, {34}, 8, 116, 0x41e8a03fu,
     "operand 1 is ptr<storage,u32,read_write>, wanted is a read_write pointer in space storage or workgroup to an atomic\n"},
    /* *(ptr<storage,u32,read_write>) */
    {UNARY_WHY, 4, "", 0, 1, {34}, 0, 0, 0x811c9dc5u,
     ""},
    /* &(ptr<storage,array<f32>,read>) */
    {UNARY_WHY, 3, "", 0, 1, {35}, 8, 86, 0x794adc83u,
     "operand 1 is ptr<storage,array<f32>,read>, wanted is a reference, not in space handle\n"},
    /* arrayLength(ptr<storage,array<f32>,read>) */
    {CALL_WHY, 0, "arrayLength", 0, 1, {35}, 0, 0, 0x811c9dc5u,
     ""},
    /* workgroupUniformLoad(ptr<storage,array<f32>,read>) */
    {CALL_WHY, 0, "workgroupUniformLoad", 0, 1, {35}, 8, 155, 0x0d4c7d1au,
     "operand 1 is ptr<storage,array<f32>,read>, wanted is a read_write pointer in space workgroup to an atomic, or to a type of fixed size with no atomic in it\n"},
    /* atomicLoad(ptr<storage,array<f32>,read>) */
    {CALL_WHY, 0, "atomicLoad", 0, 1, {35}, 8, 117, 0x2cb099cdu,
     "operand 1 is ptr<storage,array<f32>,read>, wanted is a read_write pointer in space storage or workgroup to an atomic\n"},
    /* *(ptr<storage,array<f32>,read>) */
    {UNARY_WHY, 4, "", 0, 1, {35}, 0, 0, 0x811c9dc5u,
     ""},
    /* &(ptr<storage,array<f32>,read_write>) */
    {UNARY_WHY, 3, "", 0, 1, {36}, 8, 92, 0x68c1e8dfu,
     "operand 1 is ptr<storage,array<f32>,read_write>, wanted is a reference, not in space handle\n"},
    /* arrayLength(ptr<storage,array<f32>,read_write>) */
    {CALL_WHY, 0, "arrayLength", 0, 1, {36}, 0, 0, 0x811c9dc5u,
     ""},
    /* workgroupUniformLoad(ptr<storage,array<f32>,read_write>) */
    {CALL_WHY, 0, "workgroupUniformLoad", 0, 1, {36}, 8, 161, 0x7d38ea0eu,
     "operand 1 is ptr<storage,array<f32>,read_write>, wanted is a read_write pointer in space workgroup to an atomic, or to a type of fixed size with no atomic in it\n"},
    /* atomicLoad(ptr<storage,array<f32>,read_write>) */
    {CALL_WHY, 0, "atomicLoad", 0, 1, {36}, 8, 123, 0x799119a1u,
     "operand 1 is ptr<storage,array<f32>,read_write>, wanted is a read_write pointer in space storage or workgroup to an atomic\n"},
    /* *(ptr<storage,array<f32>,read_write>) */
    {UNARY_WHY, 4, "", 0, 1, {36}, 0, 0, 0x811c9dc5u,
     ""},
    /* &(ptr<storage,array<f32>,write>) */
    {UNARY_WHY, 3, "", 0, 1, {37}, 8, 87, 0x3a02c410u,
     "operand 1 is ptr<storage,array<f32>,write>, wanted is a reference, not in space handle\n"},
    /* arrayLength(ptr<storage,array<f32>,write>) */
    {CALL_WHY, 0, "arrayLength", 0, 1, {37}, 8, 128, 0x49e2e819u,
     "operand 1 is ptr<storage,array<f32>,write>, wanted is a pointer in space storage, read or read_write, to an array without count\n"},
    /* workgroupUniformLoad(ptr<storage,array<f32>,write>) */
    {CALL_WHY, 0, "workgroupUniformLoad", 0, 1, {37}, 8, 156, 0x745f2a77u,
     "operand 1 is ptr<storage,array<f32>,write>, wanted is a read_write pointer in space workgroup to an atomic, or to a type of fixed size with no atomic in it\n"},
    /* atomicLoad(ptr<storage,array<f32>,write>) */
    {CALL_WHY, 0, "atomicLoad", 0, 1, {37}, 8, 118, 0xf2ca9d6cu,
     "operand 1 is ptr<storage,array<f32>,write>, wanted is a read_write pointer in space storage or workgroup to an atomic\n"},
    /* *(ptr<storage,array<f32>,write>) */
    {UNARY_WHY, 4, "", 0, 1, {37}, 0, 0, 0x811c9dc5u,
     ""},
    /* &(ptr<workgroup,array<f32>,read_write>) */
    {UNARY_WHY, 3, "", 0, 1, {38}, 8, 94, 0x9f1cf312u,
     "operand 1 is ptr<workgroup,array<f32>,read_write>, wanted is a reference, not in space handle\n"},
    /* arrayLength(ptr<workgroup,array<f32>,read_write>) */
    {CALL_WHY, 0, "arrayLength", 0, 1, {38}, 8, 135, 0x25c7c593u,
     "operand 1 is ptr<workgroup,array<f32>,read_write>, wanted is a pointer in space storage, read or read_write, to an array without count\n"},
    /* workgroupUniformLoad(ptr<workgroup,array<f32>,read_write>) */
    {CALL_WHY, 0, "workgroupUniformLoad", 0, 1, {38}, 8, 163, 0xa0b75035u,
     "operand 1 is ptr<workgroup,array<f32>,read_write>, wanted is a read_write pointer in space workgroup to an atomic, or to a type of fixed size with no atomic in it\n"},
    /* atomicLoad(ptr<workgroup,array<f32>,read_write>) */
    {CALL_WHY, 0, "atomicLoad", 0, 1, {38}, 8, 125, 0x0d834202u,
     "operand 1 is ptr<workgroup,array<f32>,read_write>, wanted is a read_write pointer in space storage or workgroup to an atomic\n"},
    /* *(ptr<workgroup,array<f32>,read_write>) */
    {UNARY_WHY, 4, "", 0, 1, {38}, 0, 0, 0x811c9dc5u,
     ""},
    /* &(ptr<storage,array<f32,4>,read>) */
    {UNARY_WHY, 3, "", 0, 1, {39}, 8, 88, 0x487b2ecbu,
     "operand 1 is ptr<storage,array<f32,4>,read>, wanted is a reference, not in space handle\n"},
    /* arrayLength(ptr<storage,array<f32,4>,read>) */
    {CALL_WHY, 0, "arrayLength", 0, 1, {39}, 8, 129, 0x496b9aecu,
     "operand 1 is ptr<storage,array<f32,4>,read>, wanted is a pointer in space storage, read or read_write, to an array without count\n"},
    /* workgroupUniformLoad(ptr<storage,array<f32,4>,read>) */
    {CALL_WHY, 0, "workgroupUniformLoad", 0, 1, {39}, 8, 157, 0x051ae4e2u,
     "operand 1 is ptr<storage,array<f32,4>,read>, wanted is a read_write pointer in space workgroup to an atomic, or to a type of fixed size with no atomic in it\n"},
    /* atomicLoad(ptr<storage,array<f32,4>,read>) */
    {CALL_WHY, 0, "atomicLoad", 0, 1, {39}, 8, 119, 0x4afd6de5u,
     "operand 1 is ptr<storage,array<f32,4>,read>, wanted is a read_write pointer in space storage or workgroup to an atomic\n"},
    /* *(ptr<storage,array<f32,4>,read>) */
    {UNARY_WHY, 4, "", 0, 1, {39}, 0, 0, 0x811c9dc5u,
     ""},
    /* &(ptr<workgroup,vec2<f32>,read_write>) */
    {UNARY_WHY, 3, "", 0, 1, {40}, 8, 93, 0x4fb855c9u,
     "operand 1 is ptr<workgroup,vec2<f32>,read_write>, wanted is a reference, not in space handle\n"},
    /* arrayLength(ptr<workgroup,vec2<f32>,read_write>) */
    {CALL_WHY, 0, "arrayLength", 0, 1, {40}, 8, 134, 0x2ffa39b2u,
     "operand 1 is ptr<workgroup,vec2<f32>,read_write>, wanted is a pointer in space storage, read or read_write, to an array without count\n"},
    /* workgroupUniformLoad(ptr<workgroup,vec2<f32>,read_write>) */
    {CALL_WHY, 0, "workgroupUniformLoad", 0, 1, {40}, 0, 0, 0x811c9dc5u,
     ""},
    /* atomicLoad(ptr<workgroup,vec2<f32>,read_write>) */
    {CALL_WHY, 0, "atomicLoad", 0, 1, {40}, 8, 124, 0xa335a627u,
     "operand 1 is ptr<workgroup,vec2<f32>,read_write>, wanted is a read_write pointer in space storage or workgroup to an atomic\n"},
    /* *(ptr<workgroup,vec2<f32>,read_write>) */
    {UNARY_WHY, 4, "", 0, 1, {40}, 0, 0, 0x811c9dc5u,
     ""},
    /* &(ptr<workgroup,vec2<f32>,read>) */
    {UNARY_WHY, 3, "", 0, 1, {41}, 8, 87, 0xa1fdb5e1u,
     "operand 1 is ptr<workgroup,vec2<f32>,read>, wanted is a reference, not in space handle\n"},
    /* arrayLength(ptr<workgroup,vec2<f32>,read>) */
    {CALL_WHY, 0, "arrayLength", 0, 1, {41}, 8, 128, 0xf771671au,
     "operand 1 is ptr<workgroup,vec2<f32>,read>, wanted is a pointer in space storage, read or read_write, to an array without count\n"},
    /* workgroupUniformLoad(ptr<workgroup,vec2<f32>,read>) */
    {CALL_WHY, 0, "workgroupUniformLoad", 0, 1, {41}, 8, 156, 0xbccbd34cu,
     "operand 1 is ptr<workgroup,vec2<f32>,read>, wanted is a read_write pointer in space workgroup to an atomic, or to a type of fixed size with no atomic in it\n"},
    /* atomicLoad(ptr<workgroup,vec2<f32>,read>) */
    {CALL_WHY, 0, "atomicLoad", 0, 1, {41}, 8, 118, 0x0031afefu,
     "operand 1 is ptr<workgroup,vec2<f32>,read>, wanted is a read_write pointer in space storage or workgroup to an atomic\n"},
    /* *(ptr<workgroup,vec2<f32>,read>) */
    {UNARY_WHY, 4, "", 0, 1, {41}, 0, 0, 0x811c9dc5u,
     ""},
    /* &(ptr<workgroup,array<atomic<u32>,2>,read_write>) */
    {UNARY_WHY, 3, "", 0, 1, {42}, 8, 104, 0xc612fd80u,
     "operand 1 is ptr<workgroup,array<atomic<u32>,2>,read_write>, wanted is a reference, not in space handle\n"},
    /* arrayLength(ptr<workgroup,array<atomic<u32>,2>,read_write>) */
    {CALL_WHY, 0, "arrayLength", 0, 1, {42}, 8, 145, 0x0424b069u,
     "operand 1 is ptr<workgroup,array<atomic<u32>,2>,read_write>, wanted is a pointer in space storage, read or read_write, to an array without count\n"},
    /* workgroupUniformLoad(ptr<workgroup,array<atomic<u32>,2>,read_write>) */
    {CALL_WHY, 0, "workgroupUniformLoad", 0, 1, {42}, 8, 173, 0x6e930347u,
     "operand 1 is ptr<workgroup,array<atomic<u32>,2>,read_write>, wanted is a read_write pointer in space workgroup to an atomic, or to a type of fixed size with no atomic in it\n"},
    /* atomicLoad(ptr<workgroup,array<atomic<u32>,2>,read_write>) */
    {CALL_WHY, 0, "atomicLoad", 0, 1, {42}, 8, 135, 0xc489c07cu,
     "operand 1 is ptr<workgroup,array<atomic<u32>,2>,read_write>, wanted is a read_write pointer in space storage or workgroup to an atomic\n"},
    /* *(ptr<workgroup,array<atomic<u32>,2>,read_write>) */
    {UNARY_WHY, 4, "", 0, 1, {42}, 0, 0, 0x811c9dc5u,
     ""},
    /* &(ref<function,f32,read_write>) */
    {UNARY_WHY, 3, "", 0, 1, {43}, 0, 0, 0x811c9dc5u,
     ""},
    /* &(ref<handle,f32,read>) */
    {UNARY_WHY, 3, "", 0, 1, {44}, 8, 78, 0x1de2cadeu,
     "operand 1 is ref<handle,f32,read>, wanted is a reference, not in space handle\n"},
    /* atomicStore(ptr<storage,atomic<i32>,read_write>, i32) */
    {CALL_WHY, 0, "atomicStore", 1, 2, {29, 3}, 0, 0, 0x811c9dc5u,
     ""},
    /* atomicStore(ptr<storage,atomic<i32>,read_write>, u32*) */
    {CALL_WHY, 0, "atomicStore", 1, 2, {29, RUNNING(4)}, 8, 32, 0xadcf5039u,
     "operand 2 is u32, wanted is i32\n"},
    /* atomicStore(ptr<storage,atomic<i32>,read_write>, AbstractInt) */
    {CALL_WHY, 0, "atomicStore", 1, 2, {29, 1}, 0, 0, 0x811c9dc5u,
     ""},
    /* atomicStore(ptr<storage,atomic<i32>,read_write>, AbstractFloat) */
    {CALL_WHY, 0, "atomicStore", 1, 2, {29, 2}, 8, 42, 0x754a5c4bu,
     "operand 2 is AbstractFloat, wanted is i32\n"},
    /* atomicStore(ptr<storage,atomic<i32>,read_write>, vec4<i32>) */
    {CALL_WHY, 0, "atomicStore", 1, 2, {29, 12}, 8, 38, 0x258a24c5u,
     "operand 2 is vec4<i32>, wanted is i32\n"},
    /* atomicStore(ptr<workgroup,atomic<u32>,read_write>, i32) */
    {CALL_WHY, 0, "atomicStore", 1, 2, {30, 3}, 8, 32, 0x425d98b9u,
     "operand 2 is i32, wanted is u32\n"},
    /* atomicStore(ptr<workgroup,atomic<u32>,read_write>, u32*) */
    {CALL_WHY, 0, "atomicStore", 1, 2, {30, RUNNING(4)}, 0, 0, 0x811c9dc5u,
     ""},
    /* atomicStore(ptr<workgroup,atomic<u32>,read_write>, AbstractInt) */
    {CALL_WHY, 0, "atomicStore", 1, 2, {30, 1}, 0, 0, 0x811c9dc5u,
     ""},
    /* atomicStore(ptr<workgroup,atomic<u32>,read_write>, AbstractFloat) */
    {CALL_WHY, 0, "atomicStore", 1, 2, {30, 2}, 8, 42, 0x8572fd8fu,
     "operand 2 is AbstractFloat, wanted is u32\n"},
    /* atomicStore(ptr<workgroup,atomic<u32>,read_write>, vec4<i32>) */
    {CALL_WHY, 0, "atomicStore", 1, 2, {30, 12}, 8, 38, 0x68ff1219u,
     "operand 2 is vec4<i32>, wanted is u32\n"},
    /* atomicStore(ptr<storage,atomic<u32>,read>, i32) */
    {CALL_WHY, 0, "atomicStore", 1, 2, {31, 3}, 8, 118, 0x4a245da6u,
     "operand 1 is ptr<storage,atomic<u32>,read>, wanted is a read_write pointer in space storage or workgroup to an atomic\n"},
    /* atomicStore(ptr<storage,atomic<u32>,read>, u32*) */
    {CALL_WHY, 0, "atomicStore", 1, 2, {31, RUNNING(4)}, 8, 118, 0x4a245da6u,
     "operand 1 is ptr<storage,atomic<u32>,read>, wanted is a read_write pointer in space storage or workgroup to an atomic\n"},
    /* atomicStore(ptr<storage,atomic<u32>,read>, AbstractInt) */
    {CALL_WHY, 0, "atomicStore", 1, 2, {31, 1}, 8, 118, 0x4a245da6u,
     "operand 1 is ptr<storage,atomic<u32>,read>, wanted is a read_write pointer in space storage or workgroup to an atomic\n"},
    /* atomicStore(ptr<storage,atomic<u32>,read>, AbstractFloat) */
    {CALL_WHY, 0, "atomicStore", 1, 2, {31, 2}, 8, 118, 0x4a245da6u,
     "operand 1 is ptr<storage,atomic<u32>,read>, wanted is a read_write pointer in space storage or workgroup to an atomic\n"},
    /* atomicStore(ptr<storage,atomic<u32>,read>, vec4<i32>) */
    {CALL_WHY, 0, "atomicStore", 1, 2, {31, 12}, 8, 118, 0x4a245da6u,
     "operand 1 is ptr<storage,atomic<u32>,read>, wanted is a read_write pointer in space storage or workgroup to an atomic\n"},
    /* atomicStore(ptr<private,atomic<u32>,read_write>, i32) */
    {CALL_WHY, 0, "atomicStore", 1, 2, {33, 3}, 8, 124, 0xd50a141cu,
     "operand 1 is ptr<private,atomic<u32>,read_write>, wanted is a read_write pointer in space storage or workgroup to an atomic\n"},
    /* atomicStore(ptr<private,atomic<u32>,read_write>, u32*) */
    {CALL_WHY, 0, "atomicStore", 1, 2, {33, RUNNING(4)}, 8, 124, 0xd50a141cu,
     "operand 1 is ptr<private,atomic<u32>,read_write>, wanted is a read_write pointer in space storage or workgroup to an atomic\n"},
    /* atomicStore(ptr<private,atomic<u32>,read_write>, AbstractInt) */
    {CALL_WHY, 0, "atomicStore", 1, 2, {33, 1}, 8, 124, 0xd50a141cu,
     "operand 1 is ptr<private,atomic<u32>,read_write>, wanted is a read_write pointer in space storage or workgroup to an atomic\n"},
    /* atomicStore(ptr<private,atomic<u32>,read_write>, AbstractFloat) */
    {CALL_WHY, 0, "atomicStore", 1, 2, {33, 2}, 8, 124, 0xd50a141cu,
     "operand 1 is ptr<private,atomic<u32>,read_write>, wanted is a read_write pointer in space storage or workgroup to an atomic\n"},
    /* atomicStore(ptr<private,atomic<u32>,read_write>, vec4<i32>) */
    {CALL_WHY, 0, "atomicStore", 1, 2, {33, 12}, 8, 124, 0xd50a141cu,
     "operand 1 is ptr<private,atomic<u32>,read_write>, wanted is a read_write pointer in space storage or workgroup to an atomic\n"},
    /* atomicAdd(ptr<storage,atomic<i32>,read_write>, i32) */
    {CALL_WHY, 0, "atomicAdd", 1, 2, {29, 3}, 0, 0, 0x811c9dc5u,
     ""},
    /* atomicAdd(ptr<storage,atomic<i32>,read_write>, u32*) */
    {CALL_WHY, 0, "atomicAdd", 1, 2, {29, RUNNING(4)}, 8, 32, 0xadcf5039u,
     "operand 2 is u32, wanted is i32\n"},
    /* atomicAdd(ptr<storage,atomic<i32>,read_write>, AbstractInt) */
    {CALL_WHY, 0, "atomicAdd", 1, 2, {29, 1}, 0, 0, 0x811c9dc5u,
     ""},
    /* atomicAdd(ptr<storage,atomic<i32>,read_write>, AbstractFloat) */
    {CALL_WHY, 0, "atomicAdd", 1, 2, {29, 2}, 8, 42, 0x754a5c4bu,
     "operand 2 is AbstractFloat, wanted is i32\n"},
    /* atomicAdd(ptr<storage,atomic<i32>,read_write>, vec4<i32>) */
    {CALL_WHY, 0, "atomicAdd", 1, 2, {29, 12}, 8, 38, 0x258a24c5u,
     "operand 2 is vec4<i32>, wanted is i32\n"},
    /* atomicAdd(ptr<workgroup,atomic<u32>,read_write>, i32) */
    {CALL_WHY, 0, "atomicAdd", 1, 2, {30, 3}, 8, 32, 0x425d98b9u,
     "operand 2 is i32, wanted is u32\n"},
    /* atomicAdd(ptr<workgroup,atomic<u32>,read_write>, u32*) */
    {CALL_WHY, 0, "atomicAdd", 1, 2, {30, RUNNING(4)}, 0, 0, 0x811c9dc5u,
     ""},
    /* atomicAdd(ptr<workgroup,atomic<u32>,read_write>, AbstractInt) */
    {CALL_WHY, 0, "atomicAdd", 1, 2, {30, 1}, 0, 0, 0x811c9dc5u,
     ""},
    /* atomicAdd(ptr<workgroup,atomic<u32>,read_write>, AbstractFloat) */
    {CALL_WHY, 0, "atomicAdd", 1, 2, {30, 2}, 8, 42, 0x8572fd8fu,
     "operand 2 is AbstractFloat, wanted is u32\n"},
    /* atomicAdd(ptr<workgroup,atomic<u32>,read_write>, vec4<i32>) */
    {CALL_WHY, 0, "atomicAdd", 1, 2, {30, 12}, 8, 38, 0x68ff1219u,
     "operand 2 is vec4<i32>, wanted is u32\n"},
    /* atomicAdd(ptr<storage,atomic<u32>,read>, i32) */
    {CALL_WHY, 0, "atomicAdd", 1, 2, {31, 3}, 8, 118, 0x4a245da6u,
     "operand 1 is ptr<storage,atomic<u32>,read>, wanted is a read_write pointer in space storage or workgroup to an atomic\n"},
    /* atomicAdd(ptr<storage,atomic<u32>,read>, u32*) */
    {CALL_WHY, 0, "atomicAdd", 1, 2, {31, RUNNING(4)}, 8, 118, 0x4a245da6u,
     "operand 1 is ptr<storage,atomic<u32>,read>, wanted is a read_write pointer in space storage or workgroup to an atomic\n"},
    /* atomicAdd(ptr<storage,atomic<u32>,read>, AbstractInt) */
    {CALL_WHY, 0, "atomicAdd", 1, 2, {31, 1}, 8, 118, 0x4a245da6u,
     "operand 1 is ptr<storage,atomic<u32>,read>, wanted is a read_write pointer in space storage or workgroup to an atomic\n"},
    /* atomicAdd(ptr<storage,atomic<u32>,read>, AbstractFloat) */
    {CALL_WHY, 0, "atomicAdd", 1, 2, {31, 2}, 8, 118, 0x4a245da6u,
     "operand 1 is ptr<storage,atomic<u32>,read>, wanted is a read_write pointer in space storage or workgroup to an atomic\n"},
    /* atomicAdd(ptr<storage,atomic<u32>,read>, vec4<i32>) */
    {CALL_WHY, 0, "atomicAdd", 1, 2, {31, 12}, 8, 118, 0x4a245da6u,
     "operand 1 is ptr<storage,atomic<u32>,read>, wanted is a read_write pointer in space storage or workgroup to an atomic\n"},
    /* atomicAdd(ptr<private,atomic<u32>,read_write>, i32) */
    {CALL_WHY, 0, "atomicAdd", 1, 2, {33, 3}, 8, 124, 0xd50a141cu,
     "operand 1 is ptr<private,atomic<u32>,read_write>, wanted is a read_write pointer in space storage or workgroup to an atomic\n"},
    /* atomicAdd(ptr<private,atomic<u32>,read_write>, u32*) */
    {CALL_WHY, 0, "atomicAdd", 1, 2, {33, RUNNING(4)}, 8, 124, 0xd50a141cu,
     "operand 1 is ptr<private,atomic<u32>,read_write>, wanted is a read_write pointer in space storage or workgroup to an atomic\n"},
    /* atomicAdd(ptr<private,atomic<u32>,read_write>, AbstractInt) */
    {CALL_WHY, 0, "atomicAdd", 1, 2, {33, 1}, 8, 124, 0xd50a141cu,
     "operand 1 is ptr<private,atomic<u32>,read_write>, wanted is a read_write pointer in space storage or workgroup to an atomic\n"},
    /* atomicAdd(ptr<private,atomic<u32>,read_write>, AbstractFloat) */
    {CALL_WHY, 0, "atomicAdd", 1, 2, {33, 2}, 8, 124, 0xd50a141cu,
     "operand 1 is ptr<private,atomic<u32>,read_write>, wanted is a read_write pointer in space storage or workgroup to an atomic\n"},
    /* atomicAdd(ptr<private,atomic<u32>,read_write>, vec4<i32>) */
    {CALL_WHY, 0, "atomicAdd", 1, 2, {33, 12}, 8, 124, 0xd50a141cu,
     "operand 1 is ptr<private,atomic<u32>,read_write>, wanted is a read_write pointer in space storage or workgroup to an atomic\n"},
    /* atomicSub(ptr<storage,atomic<i32>,read_write>, i32) */
    {CALL_WHY, 0, "atomicSub", 1, 2, {29, 3}, 0, 0, 0x811c9dc5u,
     ""},
    /* atomicSub(ptr<storage,atomic<i32>,read_write>, u32*) */
    {CALL_WHY, 0, "atomicSub", 1, 2, {29, RUNNING(4)}, 8, 32, 0xadcf5039u,
     "operand 2 is u32, wanted is i32\n"},
    /* atomicSub(ptr<storage,atomic<i32>,read_write>, AbstractInt) */
    {CALL_WHY, 0, "atomicSub", 1, 2, {29, 1}, 0, 0, 0x811c9dc5u,
     ""},
    /* atomicSub(ptr<storage,atomic<i32>,read_write>, AbstractFloat) */
    {CALL_WHY, 0, "atomicSub", 1, 2, {29, 2}, 8, 42, 0x754a5c4bu,
     "operand 2 is AbstractFloat, wanted is i32\n"},
    /* atomicSub(ptr<storage,atomic<i32>,read_write>, vec4<i32>) */
    {CALL_WHY, 0, "atomicSub", 1, 2, {29, 12}, 8, 38, 0x258a24c5u,
     "operand 2 is vec4<i32>, wanted is i32\n"},
    /* atomicSub(ptr<workgroup,atomic<u32>,read_write>, i32) */
    {CALL_WHY, 0, "atomicSub", 1, 2, {30, 3}, 8, 32, 0x425d98b9u,
     "operand 2 is i32, wanted is u32\n"},
    /* atomicSub(ptr<workgroup,atomic<u32>,read_write>, u32*) */
    {CALL_WHY, 0, "atomicSub", 1, 2, {30, RUNNING(4)}, 0, 0, 0x811c9dc5u,
     ""},
    /* atomicSub(ptr<workgroup,atomic<u32>,read_write>, AbstractInt) */
    {CALL_WHY, 0, "atomicSub", 1, 2, {30, 1}, 0, 0, 0x811c9dc5u,
     ""},
    /* atomicSub(ptr<workgroup,atomic<u32>,read_write>, AbstractFloat) */
    {CALL_WHY, 0, "atomicSub", 1, 2, {30, 2}, 8, 42, 0x8572fd8fu,
     "operand 2 is AbstractFloat, wanted is u32\n"},
    /* atomicSub(ptr<workgroup,atomic<u32>,read_write>, vec4<i32>) */
    {CALL_WHY, 0, "atomicSub", 1, 2, {30, 12}, 8, 38, 0x68ff1219u,
     "operand 2 is vec4<i32>, wanted is u32\n"},
    /* atomicSub(ptr<storage,atomic<u32>,read>, i32) */
    {CALL_WHY, 0, "atomicSub", 1, 2, {31, 3}, 8, 118, 0x4a245da6u,
     "operand 1 is ptr<storage,atomic<u32>,read>, wanted is a read_write pointer in space storage or workgroup to an atomic\n"},
    /* atomicSub(ptr<storage,atomic<u32>,read>, u32*) */
    {CALL_WHY, 0, "atomicSub", 1, 2, {31, RUNNING(4)}, 8, 118, 0x4a245da6u,
     "operand 1 is ptr<storage,atomic<u32>,read>, wanted is a read_write pointer in space storage or workgroup to an atomic\n"},
    /* atomicSub(ptr<storage,atomic<u32>,read>, AbstractInt) */
    {CALL_WHY, 0, "atomicSub", 1, 2, {31, 1}, 8, 118, 0x4a245da6u,
     "operand 1 is ptr<storage,atomic<u32>,read>, wanted is a read_write pointer in space storage or workgroup to an atomic\n"},
    /* atomicSub(ptr<storage,atomic<u32>,read>, AbstractFloat) */
    {CALL_WHY, 0, "atomicSub", 1, 2, {31, 2}, 8, 118, 0x4a245da6u,
     "operand 1 is ptr<storage,atomic<u32>,read>, wanted is a read_write pointer in space storage or workgroup to an atomic\n"},
    /* atomicSub(ptr<storage,atomic<u32>,read>, vec4<i32>) */
    {CALL_WHY, 0, "atomicSub", 1, 2, {31, 12}, 8, 118, 0x4a245da6u,
     "operand 1 is ptr<storage,atomic<u32>,read>, wanted is a read_write pointer in space storage or workgroup to an atomic\n"},
    /* atomicSub(ptr<private,atomic<u32>,read_write>, i32) */
    {CALL_WHY, 0, "atomicSub", 1, 2, {33, 3}, 8, 124, 0xd50a141cu,
     "operand 1 is ptr<private,atomic<u32>,read_write>, wanted is a read_write pointer in space storage or workgroup to an atomic\n"},
    /* atomicSub(ptr<private,atomic<u32>,read_write>, u32*) */
    {CALL_WHY, 0, "atomicSub", 1, 2, {33, RUNNING(4)}, 8, 124, 0xd50a141cu,
     "operand 1 is ptr<private,atomic<u32>,read_write>, wanted is a read_write pointer in space storage or workgroup to an atomic\n"},
    /* atomicSub(ptr<private,atomic<u32>,read_write>, AbstractInt) */
    {CALL_WHY, 0, "atomicSub", 1, 2, {33, 1}, 8, 124, 0xd50a141cu,
     "operand 1 is ptr<private,atomic<u32>,read_write>, wanted is a read_write pointer in space storage or workgroup to an atomic\n"},
    /* atomicSub(ptr<private,atomic<u32>,read_write>, AbstractFloat) */
    {CALL_WHY, 0, "atomicSub", 1, 2, {33, 2}, 8, 124, 0xd50a141cu,
     "operand 1 is ptr<private,atomic<u32>,read_write>, wanted is a read_write pointer in space storage or workgroup to an atomic\n"},
    /* atomicSub(ptr<private,atomic<u32>,read_write>, vec4<i32>) */
    {CALL_WHY, 0, "atomicSub", 1, 2, {33, 12}, 8, 124, 0xd50a141cu,
     "operand 1 is ptr<private,atomic<u32>,read_write>, wanted is a read_write pointer in space storage or workgroup to an atomic\n"},
    /* atomicMax(ptr<storage,atomic<i32>,read_write>, i32) */
    {CALL_WHY, 0, "atomicMax", 1, 2, {29, 3}, 0, 0, 0x811c9dc5u,
     ""},
    /* atomicMax(ptr<storage,atomic<i32>,read_write>, u32*) */
    {CALL_WHY, 0, "atomicMax", 1, 2, {29, RUNNING(4)}, 8, 32, 0xadcf5039u,
     "operand 2 is u32, wanted is i32\n"},
    /* atomicMax(ptr<storage,atomic<i32>,read_write>, AbstractInt) */
    {CALL_WHY, 0, "atomicMax", 1, 2, {29, 1}, 0, 0, 0x811c9dc5u,
     ""},
    /* atomicMax(ptr<storage,atomic<i32>,read_write>, AbstractFloat) */
    {CALL_WHY, 0, "atomicMax", 1, 2, {29, 2}, 8, 42, 0x754a5c4bu,
     "operand 2 is AbstractFloat, wanted is i32\n"},
    /* atomicMax(ptr<storage,atomic<i32>,read_write>, vec4<i32>) */
    {CALL_WHY, 0, "atomicMax", 1, 2, {29, 12}, 8, 38, 0x258a24c5u,
     "operand 2 is vec4<i32>, wanted is i32\n"},
    /* atomicMax(ptr<workgroup,atomic<u32>,read_write>, i32) */
    {CALL_WHY, 0, "atomicMax", 1, 2, {30, 3}, 8, 32, 0x425d98b9u,
     "operand 2 is i32, wanted is u32\n"},
    /* atomicMax(ptr<workgroup,atomic<u32>,read_write>, u32*) */
    {CALL_WHY, 0, "atomicMax", 1, 2, {30, RUNNING(4)}, 0, 0, 0x811c9dc5u,
     ""},
    /* atomicMax(ptr<workgroup,atomic<u32>,read_write>, AbstractInt) */
    {CALL_WHY, 0, "atomicMax", 1, 2, {30, 1}, 0, 0, 0x811c9dc5u,
     ""},
    /* atomicMax(ptr<workgroup,atomic<u32>,read_write>, AbstractFloat) */
    {CALL_WHY, 0, "atomicMax", 1, 2, {30, 2}, 8, 42, 0x8572fd8fu,
     "operand 2 is AbstractFloat, wanted is u32\n"},
    /* atomicMax(ptr<workgroup,atomic<u32>,read_write>, vec4<i32>) */
    {CALL_WHY, 0, "atomicMax", 1, 2, {30, 12}, 8, 38, 0x68ff1219u,
     "operand 2 is vec4<i32>, wanted is u32\n"},
    /* atomicMax(ptr<storage,atomic<u32>,read>, i32) */
    {CALL_WHY, 0, "atomicMax", 1, 2, {31, 3}, 8, 118, 0x4a245da6u,
     "operand 1 is ptr<storage,atomic<u32>,read>, wanted is a read_write pointer in space storage or workgroup to an atomic\n"},
    /* atomicMax(ptr<storage,atomic<u32>,read>, u32*) */
    {CALL_WHY, 0, "atomicMax", 1, 2, {31, RUNNING(4)}, 8, 118, 0x4a245da6u,
     "operand 1 is ptr<storage,atomic<u32>,read>, wanted is a read_write pointer in space storage or workgroup to an atomic\n"},
    /* atomicMax(ptr<storage,atomic<u32>,read>, AbstractInt) */
    {CALL_WHY, 0, "atomicMax", 1, 2, {31, 1}, 8, 118, 0x4a245da6u,
     "operand 1 is ptr<storage,atomic<u32>,read>, wanted is a read_write pointer in space storage or workgroup to an atomic\n"},
    /* atomicMax(ptr<storage,atomic<u32>,read>, AbstractFloat) */
    {CALL_WHY, 0, "atomicMax", 1, 2, {31, 2}, 8, 118, 0x4a245da6u,
     "operand 1 is ptr<storage,atomic<u32>,read>, wanted is a read_write pointer in space storage or workgroup to an atomic\n"},
    /* atomicMax(ptr<storage,atomic<u32>,read>, vec4<i32>) */
    {CALL_WHY, 0, "atomicMax", 1, 2, {31, 12}, 8, 118, 0x4a245da6u,
     "operand 1 is ptr<storage,atomic<u32>,read>, wanted is a read_write pointer in space storage or workgroup to an atomic\n"},
    /* atomicMax(ptr<private,atomic<u32>,read_write>, i32) */
    {CALL_WHY, 0, "atomicMax", 1, 2, {33, 3}, 8, 124, 0xd50a141cu,
     "operand 1 is ptr<private,atomic<u32>,read_write>, wanted is a read_write pointer in space storage or workgroup to an atomic\n"},
    /* atomicMax(ptr<private,atomic<u32>,read_write>, u32*) */
    {CALL_WHY, 0, "atomicMax", 1, 2, {33, RUNNING(4)}, 8, 124, 0xd50a141cu,
     "operand 1 is ptr<private,atomic<u32>,read_write>, wanted is a read_write pointer in space storage or workgroup to an atomic\n"},
    /* atomicMax(ptr<private,atomic<u32>,read_write>, AbstractInt) */
    {CALL_WHY, 0, "atomicMax", 1, 2, {33, 1}, 8, 124, 0xd50a141cu,
     "operand 1 is ptr<private,atomic<u32>,read_write>, wanted is a read_write pointer in space storage or workgroup to an atomic\n"},
    /* atomicMax(ptr<private,atomic<u32>,read_write>, AbstractFloat) */
    {CALL_WHY, 0, "atomicMax", 1, 2, {33, 2}, 8, 124, 0xd50a141cu,
     "operand 1 is ptr<private,atomic<u32>,read_write>, wanted is a read_write pointer in space storage or workgroup to an atomic\n"},
    /* atomicMax(ptr<private,atomic<u32>,read_write>, vec4<i32>) */
    {CALL_WHY, 0, "atomicMax", 1, 2, {33, 12}, 8, 124, 0xd50a141cu,
     "operand 1 is ptr<private,atomic<u32>,read_write>, wanted is a read_write pointer in space storage or workgroup to an atomic\n"},
    /* atomicMin(ptr<storage,atomic<i32>,read_write>, i32) */
    {CALL_WHY, 0, "atomicMin", 1, 2, {29, 3}, 0, 0, 0x811c9dc5u,
     ""},
    /* atomicMin(ptr<storage,atomic<i32>,read_write>, u32*) */
    {CALL_WHY, 0, "atomicMin", 1, 2, {29, RUNNING(4)}, 8, 32, 0xadcf5039u,
     "operand 2 is u32, wanted is i32\n"},
    /* atomicMin(ptr<storage,atomic<i32>,read_write>, AbstractInt) */
    {CALL_WHY, 0, "atomicMin", 1, 2, {29, 1}, 0, 0, 0x811c9dc5u,
     ""},
    /* atomicMin(ptr<storage,atomic<i32>,read_write>, AbstractFloat) */
    {CALL_WHY, 0, "atomicMin", 1, 2, {29, 2}, 8, 42, 0x754a5c4bu,
     "operand 2 is AbstractFloat, wanted is i32\n"},
    /* atomicMin(ptr<storage,atomic<i32>,read_write>, vec4<i32>) */
    {CALL_WHY, 0, "atomicMin", 1, 2, {29, 12}, 8, 38, 0x258a24c5u,
     "operand 2 is vec4<i32>, wanted is i32\n"},
    /* atomicMin(ptr<workgroup,atomic<u32>,read_write>, i32) */
    {CALL_WHY, 0, "atomicMin", 1, 2, {30, 3}, 8, 32, 0x425d98b9u,
     "operand 2 is i32, wanted is u32\n"},
    /* atomicMin(ptr<workgroup,atomic<u32>,read_write>, u32*) */
    {CALL_WHY, 0, "atomicMin", 1, 2, {30, RUNNING(4)}, 0, 0, 0x811c9dc5u,
     ""},
    /* atomicMin(ptr<workgroup,atomic<u32>,read_write>, AbstractInt) */
    {CALL_WHY, 0, "atomicMin", 1, 2, {30, 1}, 0, 0, 0x811c9dc5u,
     ""},
    /* atomicMin(ptr<workgroup,atomic<u32>,read_write>, AbstractFloat) */
    {CALL_WHY, 0, "atomicMin", 1, 2, {30, 2}, 8, 42, 0x8572fd8fu,
     "operand 2 is AbstractFloat, wanted is u32\n"},
    /* atomicMin(ptr<workgroup,atomic<u32>,read_write>, vec4<i32>) */
    {CALL_WHY, 0, "atomicMin", 1, 2, {30, 12}, 8, 38, 0x68ff1219u,
     "operand 2 is vec4<i32>, wanted is u32\n"},
    /* atomicMin(ptr<storage,atomic<u32>,read>, i32) */
    {CALL_WHY, 0, "atomicMin", 1, 2, {31, 3}, 8, 118, 0x4a245da6u,
     "operand 1 is ptr<storage,atomic<u32>,read>, wanted is a read_write pointer in space storage or workgroup to an atomic\n"},
    /* atomicMin(ptr<storage,atomic<u32>,read>, u32*) */
    {CALL_WHY, 0, "atomicMin", 1, 2, {31, RUNNING(4)}, 8, 118, 0x4a245da6u,
     "operand 1 is ptr<storage,atomic<u32>,read>, wanted is a read_write pointer in space storage or workgroup to an atomic\n"},
    /* atomicMin(ptr<storage,atomic<u32>,read>, AbstractInt) */
    {CALL_WHY, 0, "atomicMin", 1, 2, {31, 1}, 8, 118, 0x4a245da6u,
     "operand 1 is ptr<storage,atomic<u32>,read>, wanted is a read_write pointer in space storage or workgroup to an atomic\n"},
    /* atomicMin(ptr<storage,atomic<u32>,read>, AbstractFloat) */
    {CALL_WHY, 0, "atomicMin", 1, 2, {31, 2}, 8, 118, 0x4a245da6u,
     "operand 1 is ptr<storage,atomic<u32>,read>, wanted is a read_write pointer in space storage or workgroup to an atomic\n"},
    /* atomicMin(ptr<storage,atomic<u32>,read>, vec4<i32>) */
    {CALL_WHY, 0, "atomicMin", 1, 2, {31, 12}, 8, 118, 0x4a245da6u,
     "operand 1 is ptr<storage,atomic<u32>,read>, wanted is a read_write pointer in space storage or workgroup to an atomic\n"},
    /* atomicMin(ptr<private,atomic<u32>,read_write>, i32) */
    {CALL_WHY, 0, "atomicMin", 1, 2, {33, 3}, 8, 124, 0xd50a141cu,
     "operand 1 is ptr<private,atomic<u32>,read_write>, wanted is a read_write pointer in space storage or workgroup to an atomic\n"},
    /* atomicMin(ptr<private,atomic<u32>,read_write>, u32*) */
    {CALL_WHY, 0, "atomicMin", 1, 2, {33, RUNNING(4)}, 8, 124, 0xd50a141cu,
     "operand 1 is ptr<private,atomic<u32>,read_write>, wanted is a read_write pointer in space storage or workgroup to an atomic\n"},
    /* atomicMin(ptr<private,atomic<u32>,read_write>, AbstractInt) */
    {CALL_WHY, 0, "atomicMin", 1, 2, {33, 1}, 8, 124, 0xd50a141cu,
     "operand 1 is ptr<private,atomic<u32>,read_write>, wanted is a read_write pointer in space storage or workgroup to an atomic\n"},
    /* atomicMin(ptr<private,atomic<u32>,read_write>, AbstractFloat) */
    {CALL_WHY, 0, "atomicMin", 1, 2, {33, 2}, 8, 124, 0xd50a141cu,
     "operand 1 is ptr<private,atomic<u32>,read_write>, wanted is a read_write pointer in space storage or workgroup to an atomic\n"},
    /* atomicMin(ptr<private,atomic<u32>,read_write>, vec4<i32>) */
    {CALL_WHY, 0, "atomicMin", 1, 2, {33, 12}, 8, 124, 0xd50a141cu,
     "operand 1 is ptr<private,atomic<u32>,read_write>, wanted is a read_write pointer in space storage or workgroup to an atomic\n"},
    /* atomicAnd(ptr<storage,atomic<i32>,read_write>, i32) */
    {CALL_WHY, 0, "atomicAnd", 1, 2, {29, 3}, 0, 0, 0x811c9dc5u,
     ""},
    /* atomicAnd(ptr<storage,atomic<i32>,read_write>, u32*) */
    {CALL_WHY, 0, "atomicAnd", 1, 2, {29, RUNNING(4)}, 8, 32, 0xadcf5039u,
     "operand 2 is u32, wanted is i32\n"},
    /* atomicAnd(ptr<storage,atomic<i32>,read_write>, AbstractInt) */
    {CALL_WHY, 0, "atomicAnd", 1, 2, {29, 1}, 0, 0, 0x811c9dc5u,
     ""},
    /* atomicAnd(ptr<storage,atomic<i32>,read_write>, AbstractFloat) */
    {CALL_WHY, 0, "atomicAnd", 1, 2, {29, 2}, 8, 42, 0x754a5c4bu,
     "operand 2 is AbstractFloat, wanted is i32\n"},
    /* atomicAnd(ptr<storage,atomic<i32>,read_write>, vec4<i32>) */
    {CALL_WHY, 0, "atomicAnd", 1, 2, {29, 12}, 8, 38, 0x258a24c5u,
     "operand 2 is vec4<i32>, wanted is i32\n"},
    /* atomicAnd(ptr<workgroup,atomic<u32>,read_write>, i32) */
    {CALL_WHY, 0, "atomicAnd", 1, 2, {30, 3}, 8, 32, 0x425d98b9u,
     "operand 2 is i32, wanted is u32\n"},
    /* atomicAnd(ptr<workgroup,atomic<u32>,read_write>, u32*) */
    {CALL_WHY, 0, "atomicAnd", 1, 2, {30, RUNNING(4)}, 0, 0, 0x811c9dc5u,
     ""},
    /* atomicAnd(ptr<workgroup,atomic<u32>,read_write>, AbstractInt) */
    {CALL_WHY, 0, "atomicAnd", 1, 2, {30, 1}, 0, 0, 0x811c9dc5u,
     ""},
    /* atomicAnd(ptr<workgroup,atomic<u32>,read_write>, AbstractFloat) */
    {CALL_WHY, 0, "atomicAnd", 1, 2, {30, 2}, 8, 42, 0x8572fd8fu,
     "operand 2 is AbstractFloat, wanted is u32\n"},
    /* atomicAnd(ptr<workgroup,atomic<u32>,read_write>, vec4<i32>) */
    {CALL_WHY, 0, "atomicAnd", 1, 2, {30, 12}, 8, 38, 0x68ff1219u,
     "operand 2 is vec4<i32>, wanted is u32\n"},
    /* atomicAnd(ptr<storage,atomic<u32>,read>, i32) */
    {CALL_WHY, 0, "atomicAnd", 1, 2, {31, 3}, 8, 118, 0x4a245da6u,
     "operand 1 is ptr<storage,atomic<u32>,read>, wanted is a read_write pointer in space storage or workgroup to an atomic\n"},
    /* atomicAnd(ptr<storage,atomic<u32>,read>, u32*) */
    {CALL_WHY, 0, "atomicAnd", 1, 2, {31, RUNNING(4)}, 8, 118, 0x4a245da6u,
     "operand 1 is ptr<storage,atomic<u32>,read>, wanted is a read_write pointer in space storage or workgroup to an atomic\n"},
    /* atomicAnd(ptr<storage,atomic<u32>,read>, AbstractInt) */
    {CALL_WHY, 0, "atomicAnd", 1, 2, {31, 1}, 8, 118, 0x4a245da6u,
     "operand 1 is ptr<storage,atomic<u32>,read>, wanted is a read_write pointer in space storage or workgroup to an atomic\n"},
    /* atomicAnd(ptr<storage,atomic<u32>,read>, AbstractFloat) */
    {CALL_WHY, 0, "atomicAnd", 1, 2, {31, 2}, 8, 118, 0x4a245da6u,
     "operand 1 is ptr<storage,atomic<u32>,read>, wanted is a read_write pointer in space storage or workgroup to an atomic\n"},
    /* atomicAnd(ptr<storage,atomic<u32>,read>, vec4<i32>) */
    {CALL_WHY, 0, "atomicAnd", 1, 2, {31, 12}, 8, 118, 0x4a245da6u,
     "operand 1 is ptr<storage,atomic<u32>,read>, wanted is a read_write pointer in space storage or workgroup to an atomic\n"},
    /* atomicAnd(ptr<private,atomic<u32>,read_write>, i32) */
    {CALL_WHY, 0, "atomicAnd", 1, 2, {33, 3}, 8, 124, 0xd50a141cu,
     "operand 1 is ptr<private,atomic<u32>,read_write>, wanted is a read_write pointer in space storage or workgroup to an atomic\n"},
    /* atomicAnd(ptr<private,atomic<u32>,read_write>, u32*) */
    {CALL_WHY, 0, "atomicAnd", 1, 2, {33, RUNNING(4)}, 8, 124, 0xd50a141cu,
     "operand 1 is ptr<private,atomic<u32>,read_write>, wanted is a read_write pointer in space storage or workgroup to an atomic\n"},
    /* atomicAnd(ptr<private,atomic<u32>,read_write>, AbstractInt) */
    {CALL_WHY, 0, "atomicAnd", 1, 2, {33, 1}, 8, 124, 0xd50a141cu,
     "operand 1 is ptr<private,atomic<u32>,read_write>, wanted is a read_write pointer in space storage or workgroup to an atomic\n"},
    /* atomicAnd(ptr<private,atomic<u32>,read_write>, AbstractFloat) */
    {CALL_WHY, 0, "atomicAnd", 1, 2, {33, 2}, 8, 124, 0xd50a141cu,
     "operand 1 is ptr<private,atomic<u32>,read_write>, wanted is a read_write pointer in space storage or workgroup to an atomic\n"},
    /* atomicAnd(ptr<private,atomic<u32>,read_write>, vec4<i32>) */
    {CALL_WHY, 0, "atomicAnd", 1, 2, {33, 12}, 8, 124, 0xd50a141cu,
     "operand 1 is ptr<private,atomic<u32>,read_write>, wanted is a read_write pointer in space storage or workgroup to an atomic\n"},
    /* atomicOr(ptr<storage,atomic<i32>,read_write>, i32) */
    {CALL_WHY, 0, "atomicOr", 1, 2, {29, 3}, 0, 0, 0x811c9dc5u,
     ""},
    /* atomicOr(ptr<storage,atomic<i32>,read_write>, u32*) */
    {CALL_WHY, 0, "atomicOr", 1, 2, {29, RUNNING(4)}, 8, 32, 0xadcf5039u,
     "operand 2 is u32, wanted is i32\n"},
    /* atomicOr(ptr<storage,atomic<i32>,read_write>, AbstractInt) */
    {CALL_WHY, 0, "atomicOr", 1, 2, {29, 1}, 0, 0, 0x811c9dc5u,
     ""},
    /* atomicOr(ptr<storage,atomic<i32>,read_write>, AbstractFloat) */
    {CALL_WHY, 0, "atomicOr", 1, 2, {29, 2}, 8, 42, 0x754a5c4bu,
     "operand 2 is AbstractFloat, wanted is i32\n"},
    /* atomicOr(ptr<storage,atomic<i32>,read_write>, vec4<i32>) */
    {CALL_WHY, 0, "atomicOr", 1, 2, {29, 12}, 8, 38, 0x258a24c5u,
     "operand 2 is vec4<i32>, wanted is i32\n"},
    /* atomicOr(ptr<workgroup,atomic<u32>,read_write>, i32) */
    {CALL_WHY, 0, "atomicOr", 1, 2, {30, 3}, 8, 32, 0x425d98b9u,
     "operand 2 is i32, wanted is u32\n"},
    /* atomicOr(ptr<workgroup,atomic<u32>,read_write>, u32*) */
    {CALL_WHY, 0, "atomicOr", 1, 2, {30, RUNNING(4)}, 0, 0, 0x811c9dc5u,
     ""},
    /* atomicOr(ptr<workgroup,atomic<u32>,read_write>, AbstractInt) */
    {CALL_WHY, 0, "atomicOr", 1, 2, {30, 1}, 0, 0, 0x811c9dc5u,
     ""},
    /* atomicOr(ptr<workgroup,atomic<u32>,read_write>, AbstractFloat) */
    {CALL_WHY, 0, "atomicOr", 1, 2, {30, 2}, 8, 42, 0x8572fd8fu,
     "operand 2 is AbstractFloat, wanted is u32\n"},
    /* atomicOr(ptr<workgroup,atomic<u32>,read_write>, vec4<i32>) */
    {CALL_WHY, 0, "atomicOr", 1, 2, {30, 12}, 8, 38, 0x68ff1219u,
     "operand 2 is vec4<i32>, wanted is u32\n"},
    /* atomicOr(ptr<storage,atomic<u32>,read>, i32) */
    {CALL_WHY, 0, "atomicOr", 1, 2, {31, 3}, 8, 118, 0x4a245da6u,
     "operand 1 is ptr<storage,atomic<u32>,read>, wanted is a read_write pointer in space storage or workgroup to an atomic\n"},
    /* atomicOr(ptr<storage,atomic<u32>,read>, u32*) */
    {CALL_WHY, 0, "atomicOr", 1, 2, {31, RUNNING(4)}, 8, 118, 0x4a245da6u,
     "operand 1 is ptr<storage,atomic<u32>,read>, wanted is a read_write pointer in space storage or workgroup to an atomic\n"},
    /* atomicOr(ptr<storage,atomic<u32>,read>, AbstractInt) */
    {CALL_WHY, 0, "atomicOr", 1, 2, {31, 1}, 8, 118, 0x4a245da6u,
     "operand 1 is ptr<storage,atomic<u32>,read>, wanted is a read_write pointer in space storage or workgroup to an atomic\n"},
    /* atomicOr(ptr<storage,atomic<u32>,read>, AbstractFloat) */
    {CALL_WHY, 0, "atomicOr", 1, 2, {31, 2}, 8, 118, 0x4a245da6u,
     "operand 1 is ptr<storage,atomic<u32>,read>, wanted is a read_write pointer in space storage or workgroup to an atomic\n"},
    /* atomicOr(ptr<storage,atomic<u32>,read>, vec4<i32>) */
    {CALL_WHY, 0, "atomicOr", 1, 2, {31, 12}, 8, 118, 0x4a245da6u,
     "operand 1 is ptr<storage,atomic<u32>,read>, wanted is a read_write pointer in space storage or workgroup to an atomic\n"},
    /* atomicOr(ptr<private,atomic<u32>,read_write>, i32) */
    {CALL_WHY, 0, "atomicOr", 1, 2, {33, 3}, 8, 124, 0xd50a141cu,
     "operand 1 is ptr<private,atomic<u32>,read_write>, wanted is a read_write pointer in space storage or workgroup to an atomic\n"},
    /* atomicOr(ptr<private,atomic<u32>,read_write>, u32*) */
    {CALL_WHY, 0, "atomicOr", 1, 2, {33, RUNNING(4)}, 8, 124, 0xd50a141cu,
     "operand 1 is ptr<private,atomic<u32>,read_write>, wanted is a read_write pointer in space storage or workgroup to an atomic\n"},
    /* atomicOr(ptr<private,atomic<u32>,read_write>, AbstractInt) */
    {CALL_WHY, 0, "atomicOr", 1, 2, {33, 1}, 8, 124, 0xd50a141cu,
     "operand 1 is ptr<private,atomic<u32>,read_write>, wanted is a read_write pointer in space storage or workgroup to an atomic\n"},
    /* atomicOr(ptr<private,atomic<u32>,read_write>, AbstractFloat) */
    {CALL_WHY, 0, "atomicOr", 1, 2, {33, 2}, 8, 124, 0xd50a141cu,
     "operand 1 is ptr<private,atomic<u32>,read_write>, wanted is a read_write pointer in space storage or workgroup to an atomic\n"},
    /* atomicOr(ptr<private,atomic<u32>,read_write>, vec4<i32>) */
    {CALL_WHY, 0, "atomicOr", 1, 2, {33, 12}, 8, 124, 0xd50a141cu,
     "operand 1 is ptr<private,atomic<u32>,read_write>, wanted is a read_write pointer in space storage or workgroup to an atomic\n"},
    /* atomicXor(ptr<storage,atomic<i32>,read_write>, i32) */
    {CALL_WHY, 0, "atomicXor", 1, 2, {29, 3}, 0, 0, 0x811c9dc5u,
     ""},
    /* atomicXor(ptr<storage,atomic<i32>,read_write>, u32*) */
    {CALL_WHY, 0, "atomicXor", 1, 2, {29, RUNNING(4)}, 8, 32, 0xadcf5039u,
     "operand 2 is u32, wanted is i32\n"},
    /* atomicXor(ptr<storage,atomic<i32>,read_write>, AbstractInt) */
    {CALL_WHY, 0, "atomicXor", 1, 2, {29, 1}, 0, 0, 0x811c9dc5u,
     ""},
    /* atomicXor(ptr<storage,atomic<i32>,read_write>, AbstractFloat) */
    {CALL_WHY, 0, "atomicXor", 1, 2, {29, 2}, 8, 42, 0x754a5c4bu,
     "operand 2 is AbstractFloat, wanted is i32\n"},
    /* atomicXor(ptr<storage,atomic<i32>,read_write>, vec4<i32>) */
    {CALL_WHY, 0, "atomicXor", 1, 2, {29, 12}, 8, 38, 0x258a24c5u,
     "operand 2 is vec4<i32>, wanted is i32\n"},
    /* atomicXor(ptr<workgroup,atomic<u32>,read_write>, i32) */
    {CALL_WHY, 0, "atomicXor", 1, 2, {30, 3}, 8, 32, 0x425d98b9u,
     "operand 2 is i32, wanted is u32\n"},
    /* atomicXor(ptr<workgroup,atomic<u32>,read_write>, u32*) */
    {CALL_WHY, 0, "atomicXor", 1, 2, {30, RUNNING(4)}, 0, 0, 0x811c9dc5u,
     ""},
    /* atomicXor(ptr<workgroup,atomic<u32>,read_write>, AbstractInt) */
    {CALL_WHY, 0, "atomicXor", 1, 2, {30, 1}, 0, 0, 0x811c9dc5u,
     ""},
    /* atomicXor(ptr<workgroup,atomic<u32>,read_write>, AbstractFloat) */
    {CALL_WHY, 0, "atomicXor", 1, 2, {30, 2}, 8, 42, 0x8572fd8fu,
     "operand 2 is AbstractFloat, wanted is u32\n"},
    /* atomicXor(ptr<workgroup,atomic<u32>,read_write>, vec4<i32>) */
    {CALL_WHY, 0, "atomicXor", 1, 2, {30, 12}, 8, 38, 0x68ff1219u,
     "operand 2 is vec4<i32>, wanted is u32\n"},
    /* atomicXor(ptr<storage,atomic<u32>,read>, i32) */
    {CALL_WHY, 0, "atomicXor", 1, 2, {31, 3}, 8, 118, 0x4a245da6u,
     "operand 1 is ptr<storage,atomic<u32>,read>, wanted is a read_write pointer in space storage or workgroup to an atomic\n"},
    /* atomicXor(ptr<storage,atomic<u32>,read>, u32*) */
    {CALL_WHY, 0, "atomicXor", 1, 2, {31, RUNNING(4)}, 8, 118, 0x4a245da6u,
     "operand 1 is ptr<storage,atomic<u32>,read>, wanted is a read_write pointer in space storage or workgroup to an atomic\n"},
    /* atomicXor(ptr<storage,atomic<u32>,read>, AbstractInt) */
    {CALL_WHY, 0, "atomicXor", 1, 2, {31, 1}, 8, 118, 0x4a245da6u,
     "operand 1 is ptr<storage,atomic<u32>,read>, wanted is a read_write pointer in space storage or workgroup to an atomic\n"},
    /* atomicXor(ptr<storage,atomic<u32>,read>, AbstractFloat) */
    {CALL_WHY, 0, "atomicXor", 1, 2, {31, 2}, 8, 118, 0x4a245da6u,
     "operand 1 is ptr<storage,atomic<u32>,read>, wanted is a read_write pointer in space storage or workgroup to an atomic\n"},
    /* atomicXor(ptr<storage,atomic<u32>,read>, vec4<i32>) */
    {CALL_WHY, 0, "atomicXor", 1, 2, {31, 12}, 8, 118, 0x4a245da6u,
     "operand 1 is ptr<storage,atomic<u32>,read>, wanted is a read_write pointer in space storage or workgroup to an atomic\n"},
    /* atomicXor(ptr<private,atomic<u32>,read_write>, i32) */
    {CALL_WHY, 0, "atomicXor", 1, 2, {33, 3}, 8, 124, 0xd50a141cu,
     "operand 1 is ptr<private,atomic<u32>,read_write>, wanted is a read_write pointer in space storage or workgroup to an atomic\n"},
    /* atomicXor(ptr<private,atomic<u32>,read_write>, u32*) */
    {CALL_WHY, 0, "atomicXor", 1, 2, {33, RUNNING(4)}, 8, 124, 0xd50a141cu,
     "operand 1 is ptr<private,atomic<u32>,read_write>, wanted is a read_write pointer in space storage or workgroup to an atomic\n"},
    /* atomicXor(ptr<private,atomic<u32>,read_write>, AbstractInt) */
    {CALL_WHY, 0, "atomicXor", 1, 2, {33, 1}, 8, 124, 0xd50a141cu,
     "operand 1 is ptr<private,atomic<u32>,read_write>, wanted is a read_write pointer in space storage or workgroup to an atomic\n"},
    /* atomicXor(ptr<private,atomic<u32>,read_write>, AbstractFloat) */
    {CALL_WHY, 0, "atomicXor", 1, 2, {33, 2}, 8, 124, 0xd50a141cu,
     "operand 1 is ptr<private,atomic<u32>,read_write>, wanted is a read_write pointer in space storage or workgroup to an atomic\n"},
    /* atomicXor(ptr<private,atomic<u32>,read_write>, vec4<i32>) */
    {CALL_WHY, 0, "atomicXor", 1, 2, {33, 12}, 8, 124, 0xd50a141cu,
     "operand 1 is ptr<private,atomic<u32>,read_write>, wanted is a read_write pointer in space storage or workgroup to an atomic\n"},
    /* atomicExchange(ptr<storage,atomic<i32>,read_write>, i32) */
    {CALL_WHY, 0, "atomicExchange", 1, 2, {29, 3}, 0, 0, 0x811c9dc5u,
     ""},
    /* atomicExchange(ptr<storage,atomic<i32>,read_write>, u32*) */
    {CALL_WHY, 0, "atomicExchange", 1, 2, {29, RUNNING(4)}, 8, 32, 0xadcf5039u,
     "operand 2 is u32, wanted is i32\n"},
    /* atomicExchange(ptr<storage,atomic<i32>,read_write>, AbstractInt) */
    {CALL_WHY, 0, "atomicExchange", 1, 2, {29, 1}, 0, 0, 0x811c9dc5u,
     ""},
    /* atomicExchange(ptr<storage,atomic<i32>,read_write>, AbstractFloat) */
    {CALL_WHY, 0, "atomicExchange", 1, 2, {29, 2}, 8, 42, 0x754a5c4bu,
     "operand 2 is AbstractFloat, wanted is i32\n"},
    /* atomicExchange(ptr<storage,atomic<i32>,read_write>, vec4<i32>) */
    {CALL_WHY, 0, "atomicExchange", 1, 2, {29, 12}, 8, 38, 0x258a24c5u,
     "operand 2 is vec4<i32>, wanted is i32\n"},
    /* atomicExchange(ptr<workgroup,atomic<u32>,read_write>, i32) */
    {CALL_WHY, 0, "atomicExchange", 1, 2, {30, 3}, 8, 32, 0x425d98b9u,
     "operand 2 is i32, wanted is u32\n"},
    /* atomicExchange(ptr<workgroup,atomic<u32>,read_write>, u32*) */
    {CALL_WHY, 0, "atomicExchange", 1, 2, {30, RUNNING(4)}, 0, 0, 0x811c9dc5u,
     ""},
    /* atomicExchange(ptr<workgroup,atomic<u32>,read_write>, AbstractInt) */
    {CALL_WHY, 0, "atomicExchange", 1, 2, {30, 1}, 0, 0, 0x811c9dc5u,
     ""},
    /* atomicExchange(ptr<workgroup,atomic<u32>,read_write>, AbstractFloat) */
    {CALL_WHY, 0, "atomicExchange", 1, 2, {30, 2}, 8, 42, 0x8572fd8fu,
     "operand 2 is AbstractFloat, wanted is u32\n"},
    /* atomicExchange(ptr<workgroup,atomic<u32>,read_write>, vec4<i32>) */
    {CALL_WHY, 0, "atomicExchange", 1, 2, {30, 12}, 8, 38, 0x68ff1219u,
     "operand 2 is vec4<i32>, wanted is u32\n"},
    /* atomicExchange(ptr<storage,atomic<u32>,read>, i32) */
    {CALL_WHY, 0, "atomicExchange", 1, 2, {31, 3}, 8, 118, 0x4a245da6u,
     "operand 1 is ptr<storage,atomic<u32>,read>, wanted is a read_write pointer in space storage or workgroup to an atomic\n"},
    /* atomicExchange(ptr<storage,atomic<u32>,read>, u32*) */
    {CALL_WHY, 0, "atomicExchange", 1, 2, {31, RUNNING(4)}, 8, 118, 0x4a245da6u,
     "operand 1 is ptr<storage,atomic<u32>,read>, wanted is a read_write pointer in space storage or workgroup to an atomic\n"},
    /* atomicExchange(ptr<storage,atomic<u32>,read>, AbstractInt) */
    {CALL_WHY, 0, "atomicExchange", 1, 2, {31, 1}, 8, 118, 0x4a245da6u,
     "operand 1 is ptr<storage,atomic<u32>,read>, wanted is a read_write pointer in space storage or workgroup to an atomic\n"},
    /* atomicExchange(ptr<storage,atomic<u32>,read>, AbstractFloat) */
    {CALL_WHY, 0, "atomicExchange", 1, 2, {31, 2}, 8, 118, 0x4a245da6u,
     "operand 1 is ptr<storage,atomic<u32>,read>, wanted is a read_write pointer in space storage or workgroup to an atomic\n"},
    /* atomicExchange(ptr<storage,atomic<u32>,read>, vec4<i32>) */
    {CALL_WHY, 0, "atomicExchange", 1, 2, {31, 12}, 8, 118, 0x4a245da6u,
     "operand 1 is ptr<storage,atomic<u32>,read>, wanted is a read_write pointer in space storage or workgroup to an atomic\n"},
    /* atomicExchange(ptr<private,atomic<u32>,read_write>, i32) */
    {CALL_WHY, 0, "atomicExchange", 1, 2, {33, 3}, 8, 124, 0xd50a141cu,
     "operand 1 is ptr<private,atomic<u32>,read_write>, wanted is a read_write pointer in space storage or workgroup to an atomic\n"},
    /* atomicExchange(ptr<private,atomic<u32>,read_write>, u32*) */
    {CALL_WHY, 0, "atomicExchange", 1, 2, {33, RUNNING(4)}, 8, 124, 0xd50a141cu,
     "operand 1 is ptr<private,atomic<u32>,read_write>, wanted is a read_write pointer in space storage or workgroup to an atomic\n"},
    /* atomicExchange(ptr<private,atomic<u32>,read_write>, AbstractInt) */
    {CALL_WHY, 0, "atomicExchange", 1, 2, {33, 1}, 8, 124, 0xd50a141cu,
     "operand 1 is ptr<private,atomic<u32>,read_write>, wanted is a read_write pointer in space storage or workgroup to an atomic\n"},
    /* atomicExchange(ptr<private,atomic<u32>,read_write>, AbstractFloat) */
    {CALL_WHY, 0, "atomicExchange", 1, 2, {33, 2}, 8, 124, 0xd50a141cu,
     "operand 1 is ptr<private,atomic<u32>,read_write>, wanted is a read_write pointer in space storage or workgroup to an atomic\n"},
    /* atomicExchange(ptr<private,atomic<u32>,read_write>, vec4<i32>) */
    {CALL_WHY, 0, "atomicExchange", 1, 2, {33, 12}, 8, 124, 0xd50a141cu,
     "operand 1 is ptr<private,atomic<u32>,read_write>, wanted is a read_write pointer in space storage or workgroup to an atomic\n"},
    /* atomicCompareExchangeWeak(ptr<storage,atomic<i32>,read_write>, i32, i32) */
    {CALL_WHY, 0, "atomicCompareExchangeWeak", 1, 3, {29, 3, 3}, 0, 0, 0x811c9dc5u,
     ""},
    /* atomicCompareExchangeWeak(ptr<storage,atomic<i32>,read_write>, u32*, u32*) */
    {CALL_WHY, 0, "atomicCompareExchangeWeak", 1, 3, {29, RUNNING(4), RUNNING(4)}, 8, 32, 0xadcf5039u,
     "operand 2 is u32, wanted is i32\n"},
    /* atomicCompareExchangeWeak(ptr<storage,atomic<i32>,read_write>, AbstractInt, AbstractInt) */
    {CALL_WHY, 0, "atomicCompareExchangeWeak", 1, 3, {29, 1, 1}, 0, 0, 0x811c9dc5u,
     ""},
    /* atomicCompareExchangeWeak(ptr<storage,atomic<i32>,read_write>, AbstractFloat, AbstractFloat) */
    {CALL_WHY, 0, "atomicCompareExchangeWeak", 1, 3, {29, 2, 2}, 8, 42, 0x754a5c4bu,
     "operand 2 is AbstractFloat, wanted is i32\n"},
    /* atomicCompareExchangeWeak(ptr<storage,atomic<i32>,read_write>, vec4<i32>, vec4<i32>) */
    {CALL_WHY, 0, "atomicCompareExchangeWeak", 1, 3, {29, 12, 12}, 8, 38, 0x258a24c5u,
     "operand 2 is vec4<i32>, wanted is i32\n"},
    /* atomicCompareExchangeWeak(ptr<workgroup,atomic<u32>,read_write>, i32, i32) */
    {CALL_WHY, 0, "atomicCompareExchangeWeak", 1, 3, {30, 3, 3}, 8, 32, 0x425d98b9u,
     "operand 2 is i32, wanted is u32\n"},
    /* atomicCompareExchangeWeak(ptr<workgroup,atomic<u32>,read_write>, u32*, u32*) */
    {CALL_WHY, 0, "atomicCompareExchangeWeak", 1, 3, {30, RUNNING(4), RUNNING(4)}, 0, 0, 0x811c9dc5u,
     ""},
    /* atomicCompareExchangeWeak(ptr<workgroup,atomic<u32>,read_write>, AbstractInt, AbstractInt) */
    {CALL_WHY, 0, "atomicCompareExchangeWeak", 1, 3, {30, 1, 1}, 0, 0, 0x811c9dc5u,
     ""},
    /* atomicCompareExchangeWeak(ptr<workgroup,atomic<u32>,read_write>, AbstractFloat, AbstractFloat) */
    {CALL_WHY, 0, "atomicCompareExchangeWeak", 1, 3, {30, 2, 2}, 8, 42, 0x8572fd8fu,
     "operand 2 is AbstractFloat, wanted is u32\n"},
    /* atomicCompareExchangeWeak(ptr<workgroup,atomic<u32>,read_write>, vec4<i32>, vec4<i32>) */
    {CALL_WHY, 0, "atomicCompareExchangeWeak", 1, 3, {30, 12, 12}, 8, 38, 0x68ff1219u,
     "operand 2 is vec4<i32>, wanted is u32\n"},
    /* atomicCompareExchangeWeak(ptr<storage,atomic<u32>,read>, i32, i32) */
    {CALL_WHY, 0, "atomicCompareExchangeWeak", 1, 3, {31, 3, 3}, 8, 118, 0x4a245da6u,
     "operand 1 is ptr<storage,atomic<u32>,read>, wanted is a read_write pointer in space storage or workgroup to an atomic\n"},
    /* atomicCompareExchangeWeak(ptr<storage,atomic<u32>,read>, u32*, u32*) */
    {CALL_WHY, 0, "atomicCompareExchangeWeak", 1, 3, {31, RUNNING(4), RUNNING(4)}, 8, 118, 0x4a245da6u,
     "operand 1 is ptr<storage,atomic<u32>,read>, wanted is a read_write pointer in space storage or workgroup to an atomic\n"},
    /* atomicCompareExchangeWeak(ptr<storage,atomic<u32>,read>, AbstractInt, AbstractInt) */
    {CALL_WHY, 0, "atomicCompareExchangeWeak", 1, 3, {31, 1, 1}, 8, 118, 0x4a245da6u,
     "operand 1 is ptr<storage,atomic<u32>,read>, wanted is a read_write pointer in space storage or workgroup to an atomic\n"},
    /* atomicCompareExchangeWeak(ptr<storage,atomic<u32>,read>, AbstractFloat, AbstractFloat) */
    {CALL_WHY, 0, "atomicCompareExchangeWeak", 1, 3, {31, 2, 2}, 8, 118, 0x4a245da6u,
     "operand 1 is ptr<storage,atomic<u32>,read>, wanted is a read_write pointer in space storage or workgroup to an atomic\n"},
    /* atomicCompareExchangeWeak(ptr<storage,atomic<u32>,read>, vec4<i32>, vec4<i32>) */
    {CALL_WHY, 0, "atomicCompareExchangeWeak", 1, 3, {31, 12, 12}, 8, 118, 0x4a245da6u,
     "operand 1 is ptr<storage,atomic<u32>,read>, wanted is a read_write pointer in space storage or workgroup to an atomic\n"},
    /* atomicCompareExchangeWeak(ptr<private,atomic<u32>,read_write>, i32, i32) */
    {CALL_WHY, 0, "atomicCompareExchangeWeak", 1, 3, {33, 3, 3}, 8, 124, 0xd50a141cu,
     "operand 1 is ptr<private,atomic<u32>,read_write>, wanted is a read_write pointer in space storage or workgroup to an atomic\n"},
    /* atomicCompareExchangeWeak(ptr<private,atomic<u32>,read_write>, u32*, u32*) */
    {CALL_WHY, 0, "atomicCompareExchangeWeak", 1, 3, {33, RUNNING(4), RUNNING(4)}, 8, 124, 0xd50a141cu,
     "operand 1 is ptr<private,atomic<u32>,read_write>, wanted is a read_write pointer in space storage or workgroup to an atomic\n"},
    /* atomicCompareExchangeWeak(ptr<private,atomic<u32>,read_write>, AbstractInt, AbstractInt) */
    {CALL_WHY, 0, "atomicCompareExchangeWeak", 1, 3, {33, 1, 1}, 8, 124, 0xd50a141cu,
     "operand 1 is ptr<private,atomic<u32>,read_write>, wanted is a read_write pointer in space storage or workgroup to an atomic\n"},
    /* atomicCompareExchangeWeak(ptr<private,atomic<u32>,read_write>, AbstractFloat, AbstractFloat) */
    {CALL_WHY, 0, "atomicCompareExchangeWeak", 1, 3, {33, 2, 2}, 8, 124, 0xd50a141cu,
     "operand 1 is ptr<private,atomic<u32>,read_write>, wanted is a read_write pointer in space storage or workgroup to an atomic\n"},
    /* atomicCompareExchangeWeak(ptr<private,atomic<u32>,read_write>, vec4<i32>, vec4<i32>) */
    {CALL_WHY, 0, "atomicCompareExchangeWeak", 1, 3, {33, 12, 12}, 8, 124, 0xd50a141cu,
     "operand 1 is ptr<private,atomic<u32>,read_write>, wanted is a read_write pointer in space storage or workgroup to an atomic\n"},
    /* atomicCompareExchangeWeak(ptr<storage,atomic<i32>,read_write>, AbstractInt, f32) */
    {CALL_WHY, 0, "atomicCompareExchangeWeak", 0, 3, {29, 1, 5}, 8, 32, 0x0548a759u,
     "operand 3 is f32, wanted is i32\n"},
    /* atomicCompareExchangeWeak(ptr<storage,atomic<i32>,read_write>, f32, AbstractInt) */
    {CALL_WHY, 0, "atomicCompareExchangeWeak", 0, 3, {29, 5, 1}, 8, 32, 0x92ce5d84u,
     "operand 2 is f32, wanted is i32\n"},
    /* atomicCompareExchangeWeak(ptr<storage,atomic<i32>,read_write>, i32, u32) */
    {CALL_WHY, 0, "atomicCompareExchangeWeak", 0, 3, {29, 3, 4}, 8, 32, 0xda752ba4u,
     "operand 3 is u32, wanted is i32\n"},
    /* atomicCompareExchangeWeak(ptr<storage,atomic<i32>,read_write>, u32, i32) */
    {CALL_WHY, 0, "atomicCompareExchangeWeak", 0, 3, {29, 4, 3}, 8, 32, 0xadcf5039u,
     "operand 2 is u32, wanted is i32\n"},
    /* atomicCompareExchangeWeak(ptr<workgroup,atomic<u32>,read_write>, AbstractInt, f32) */
    {CALL_WHY, 0, "atomicCompareExchangeWeak", 0, 3, {30, 1, 5}, 8, 32, 0xc1d3ba05u,
     "operand 3 is f32, wanted is u32\n"},
    /* atomicCompareExchangeWeak(ptr<workgroup,atomic<u32>,read_write>, f32, AbstractInt) */
    {CALL_WHY, 0, "atomicCompareExchangeWeak", 0, 3, {30, 5, 1}, 8, 32, 0xdf42fe90u,
     "operand 2 is f32, wanted is u32\n"},
    /* atomicCompareExchangeWeak(ptr<workgroup,atomic<u32>,read_write>, i32, u32) */
    {CALL_WHY, 0, "atomicCompareExchangeWeak", 0, 3, {30, 3, 4}, 8, 32, 0x425d98b9u,
     "operand 2 is i32, wanted is u32\n"},
    /* atomicCompareExchangeWeak(ptr<workgroup,atomic<u32>,read_write>, u32, i32) */
    {CALL_WHY, 0, "atomicCompareExchangeWeak", 0, 3, {30, 4, 3}, 8, 32, 0x8e731cf4u,
     "operand 3 is i32, wanted is u32\n"},
};

/* The longest text: the arrays that its first operand has one in the other, its lines, its length and its sum. */
enum { WHY_ARRAYS = 247, WHY_LINES = 249 };
#define WHY_LENGTH 1133751u
#define WHY_SUM 0xf64ac7d9u

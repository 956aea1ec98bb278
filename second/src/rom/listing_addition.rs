//! Listing 003, `addition`, assembled: the address of each instruction, its bytes, and
//! its words as printed.

#[rustfmt::skip]
pub const ADDITION: &[(u16, &[u8])] = &[
    // addition
    (0x3014, &[0x1A]),              // LD A,(DE)
    (0x3015, &[0xB6]),              // OR (HL)
    (0x3016, &[0x20, 0x26]),        // JR NZ,FULL_ADDN
    (0x3018, &[0xD5]),              // PUSH DE
    (0x3019, &[0x23]),              // INC HL
    (0x301A, &[0xE5]),              // PUSH HL
    (0x301B, &[0x23]),              // INC HL
    (0x301C, &[0x5E]),              // LD E,(HL)
    (0x301D, &[0x23]),              // INC HL
    (0x301E, &[0x56]),              // LD D,(HL)
    (0x301F, &[0x23]),              // INC HL
    (0x3020, &[0x23]),              // INC HL
    (0x3021, &[0x23]),              // INC HL
    (0x3022, &[0x7E]),              // LD A,(HL)
    (0x3023, &[0x23]),              // INC HL
    (0x3024, &[0x4E]),              // LD C,(HL)
    (0x3025, &[0x23]),              // INC HL
    (0x3026, &[0x46]),              // LD B,(HL)
    (0x3027, &[0xE1]),              // POP HL
    (0x3028, &[0xEB]),              // EX DE,HL
    (0x3029, &[0x09]),              // ADD HL,BC
    (0x302A, &[0xEB]),              // EX DE,HL
    (0x302B, &[0x8E]),              // ADC A,(HL)
    (0x302C, &[0x0F]),              // RRCA
    (0x302D, &[0xCE, 0x00]),        // ADC A,$00
    (0x302F, &[0x20, 0x0B]),        // JR NZ,ADDN_OFLW
    (0x3031, &[0x9F]),              // SBC A,A
    (0x3032, &[0x77]),              // LD (HL),A
    (0x3033, &[0x23]),              // INC HL
    (0x3034, &[0x73]),              // LD (HL),E
    (0x3035, &[0x23]),              // INC HL
    (0x3036, &[0x72]),              // LD (HL),D
    (0x3037, &[0x2B]),              // DEC HL
    (0x3038, &[0x2B]),              // DEC HL
    (0x3039, &[0x2B]),              // DEC HL
    (0x303A, &[0xD1]),              // POP DE
    (0x303B, &[0xC9]),              // RET
    // ADDN_OFLW
    (0x303C, &[0x2B]),              // DEC HL
    (0x303D, &[0xD1]),              // POP DE
    // FULL_ADDN
    (0x303E, &[0xCD, 0x93, 0x32]),  // CALL RE_ST_TWO
    (0x3041, &[0xD9]),              // EXX
    (0x3042, &[0xE5]),              // PUSH HL
    (0x3043, &[0xD9]),              // EXX
    (0x3044, &[0xD5]),              // PUSH DE
    (0x3045, &[0xE5]),              // PUSH HL
    (0x3046, &[0xCD, 0x9B, 0x2F]),  // CALL PREP_ADD
    (0x3049, &[0x47]),              // LD B,A
    (0x304A, &[0xEB]),              // EX DE,HL
    (0x304B, &[0xCD, 0x9B, 0x2F]),  // CALL PREP_ADD
    (0x304E, &[0x4F]),              // LD C,A
    (0x304F, &[0xB8]),              // CP B
    (0x3050, &[0x30, 0x03]),        // JR NC,SHIFT_LEN
    (0x3052, &[0x78]),              // LD A,B
    (0x3053, &[0x41]),              // LD B,C
    (0x3054, &[0xEB]),              // EX DE,HL
    // SHIFT_LEN
    (0x3055, &[0xF5]),              // PUSH AF
    (0x3056, &[0x90]),              // SUB B
    (0x3057, &[0xCD, 0xBA, 0x2F]),  // CALL FETCH_TWO
    (0x305A, &[0xCD, 0xDD, 0x2F]),  // CALL SHIFT_FP
    (0x305D, &[0xF1]),              // POP AF
    (0x305E, &[0xE1]),              // POP HL
    (0x305F, &[0x77]),              // LD (HL),A
    (0x3060, &[0xE5]),              // PUSH HL
    (0x3061, &[0x68]),              // LD L,B
    (0x3062, &[0x61]),              // LD H,C
    (0x3063, &[0x19]),              // ADD HL,DE
    (0x3064, &[0xD9]),              // EXX
    (0x3065, &[0xEB]),              // EX DE,HL
    (0x3066, &[0xED, 0x4A]),        // ADC HL,BC
    (0x3068, &[0xEB]),              // EX DE,HL
    (0x3069, &[0x7C]),              // LD A,H
    (0x306A, &[0x8D]),              // ADC A,L
    (0x306B, &[0x6F]),              // LD L,A
    (0x306C, &[0x1F]),              // RRA
    (0x306D, &[0xAD]),              // XOR L
    (0x306E, &[0xD9]),              // EXX
    (0x306F, &[0xEB]),              // EX DE,HL
    (0x3070, &[0xE1]),              // POP HL
    (0x3071, &[0x1F]),              // RRA
    (0x3072, &[0x30, 0x08]),        // JR NC,TEST_NEG
    (0x3074, &[0x3E, 0x01]),        // LD A,$01
    (0x3076, &[0xCD, 0xDD, 0x2F]),  // CALL SHIFT_FP
    (0x3079, &[0x34]),              // INC (HL)
    (0x307A, &[0x28, 0x23]),        // JR Z,ADD_REP_6
    // TEST_NEG
    (0x307C, &[0xD9]),              // EXX
    (0x307D, &[0x7D]),              // LD A,L
    (0x307E, &[0xE6, 0x80]),        // AND $80
    (0x3080, &[0xD9]),              // EXX
    (0x3081, &[0x23]),              // INC HL
    (0x3082, &[0x77]),              // LD (HL),A
    (0x3083, &[0x2B]),              // DEC HL
    (0x3084, &[0x28, 0x1F]),        // JR Z,GO_NC_MLT
    (0x3086, &[0x7B]),              // LD A,E
    (0x3087, &[0xED, 0x44]),        // NEG
    (0x3089, &[0x3F]),              // CCF
    (0x308A, &[0x5F]),              // LD E,A
    (0x308B, &[0x7A]),              // LD A,D
    (0x308C, &[0x2F]),              // CPL
    (0x308D, &[0xCE, 0x00]),        // ADC A,$00
    (0x308F, &[0x57]),              // LD D,A
    (0x3090, &[0xD9]),              // EXX
    (0x3091, &[0x7B]),              // LD A,E
    (0x3092, &[0x2F]),              // CPL
    (0x3093, &[0xCE, 0x00]),        // ADC A,$00
    (0x3095, &[0x5F]),              // LD E,A
    (0x3096, &[0x7A]),              // LD A,D
    (0x3097, &[0x2F]),              // CPL
    (0x3098, &[0xCE, 0x00]),        // ADC A,$00
    (0x309A, &[0x30, 0x07]),        // JR NC,END_COMPL
    (0x309C, &[0x1F]),              // RRA
    (0x309D, &[0xD9]),              // EXX
    (0x309E, &[0x34]),              // INC (HL)
    // ADD_REP_6
    (0x309F, &[0xCA, 0xAD, 0x31]),  // JP Z,REPORT_6
    (0x30A2, &[0xD9]),              // EXX
    // END_COMPL
    (0x30A3, &[0x57]),              // LD D,A
    (0x30A4, &[0xD9]),              // EXX
    // GO_NC_MLT
    (0x30A5, &[0xAF]),              // XOR A
    (0x30A6, &[0xC3, 0x55, 0x31]),  // JP TEST_NORM
];

//! Listing 002, `truncate`, assembled: the address of each instruction, its bytes, and
//! its words as printed.

#[rustfmt::skip]
pub const TRUNCATION: &[(u16, &[u8])] = &[
    // truncate
    (0x3214, &[0x7E]),              // LD A,(HL)
    (0x3215, &[0xA7]),              // AND A
    (0x3216, &[0xC8]),              // RET Z
    (0x3217, &[0xFE, 0x81]),        // CP 129
    (0x3219, &[0x30, 0x06]),        // JR NC,T_GR_ZERO
    (0x321B, &[0x36, 0x00]),        // LD (HL),0
    (0x321D, &[0x3E, 0x20]),        // LD A,32
    (0x321F, &[0x18, 0x51]),        // JR NIL_BYTES
    // T_GR_ZERO
    (0x3221, &[0xFE, 0x91]),        // CP 145
    (0x3223, &[0x20, 0x1A]),        // JR NZ,T_SMALL
    (0x3225, &[0x23]),              // INC HL
    (0x3226, &[0x23]),              // INC HL
    (0x3227, &[0x23]),              // INC HL
    (0x3228, &[0x3E, 0x80]),        // LD A,128
    (0x322A, &[0xA6]),              // AND (HL)
    (0x322B, &[0x2B]),              // DEC HL
    (0x322C, &[0xB6]),              // OR (HL)
    (0x322D, &[0x2B]),              // DEC HL
    (0x322E, &[0x20, 0x03]),        // JR NZ,T_FIRST
    (0x3230, &[0x3E, 0x80]),        // LD A,128
    (0x3232, &[0xAE]),              // XOR (HL)
    // T_FIRST
    (0x3233, &[0x2B]),              // DEC HL
    (0x3234, &[0x20, 0x36]),        // JR NZ,T_EXPNENT
    (0x3236, &[0x77]),              // LD (HL),A
    (0x3237, &[0x23]),              // INC HL
    (0x3238, &[0x36, 0xFF]),        // LD (HL),255
    (0x323A, &[0x2B]),              // DEC HL
    (0x323B, &[0x3E, 0x18]),        // LD A,24
    (0x323D, &[0x18, 0x33]),        // JR NIL_BYTES
    // T_SMALL
    (0x323F, &[0x30, 0x2C]),        // JR NC,X_LARGE
    (0x3241, &[0xD5]),              // PUSH DE
    (0x3242, &[0x2F]),              // CPL
    (0x3243, &[0xC6, 0x91]),        // ADD A,145
    (0x3245, &[0x23]),              // INC HL
    (0x3246, &[0x56]),              // LD D,(HL)
    (0x3247, &[0x23]),              // INC HL
    (0x3248, &[0x5E]),              // LD E,(HL)
    (0x3249, &[0x2B]),              // DEC HL
    (0x324A, &[0x2B]),              // DEC HL
    (0x324B, &[0x0E, 0x00]),        // LD C,0
    (0x324D, &[0xCB, 0x7A]),        // BIT 7,D
    (0x324F, &[0x28, 0x01]),        // JR Z,T_NUMERIC
    (0x3251, &[0x0D]),              // DEC C
    // T_NUMERIC
    (0x3252, &[0xCB, 0xFA]),        // SET 7,D
    (0x3254, &[0x06, 0x08]),        // LD B,8
    (0x3256, &[0x90]),              // SUB B
    (0x3257, &[0x80]),              // ADD A,B
    (0x3258, &[0x38, 0x04]),        // JR C,T_TEST
    (0x325A, &[0x5A]),              // LD E,D
    (0x325B, &[0x16, 0x00]),        // LD D,0
    (0x325D, &[0x90]),              // SUB B
    // T_TEST
    (0x325E, &[0x28, 0x07]),        // JR Z,T_STORE
    (0x3260, &[0x47]),              // LD B,A
    // T_SHIFT
    (0x3261, &[0xCB, 0x3A]),        // SRL D
    (0x3263, &[0xCB, 0x1B]),        // RR E
    (0x3265, &[0x10, 0xFA]),        // DJNZ T_SHIFT
    // T_STORE
    (0x3267, &[0xCD, 0x8E, 0x2D]),  // CALL INT_STORE
    (0x326A, &[0xD1]),              // POP DE
    (0x326B, &[0xC9]),              // RET
    // T_EXPNENT
    (0x326C, &[0x7E]),              // LD A,(HL)
    // X_LARGE
    (0x326D, &[0xD6, 0xA0]),        // SUB 160
    (0x326F, &[0xF0]),              // RET P
    (0x3270, &[0xED, 0x44]),        // NEG
    // NIL_BYTES
    (0x3272, &[0xD5]),              // PUSH DE
    (0x3273, &[0xEB]),              // EX DE,HL
    (0x3274, &[0x2B]),              // DEC HL
    (0x3275, &[0x47]),              // LD B,A
    (0x3276, &[0xCB, 0x38]),        // SRL B
    (0x3278, &[0xCB, 0x38]),        // SRL B
    (0x327A, &[0xCB, 0x38]),        // SRL B
    (0x327C, &[0x28, 0x05]),        // JR Z,BITS_ZERO
    // BYTE_ZERO
    (0x327E, &[0x36, 0x00]),        // LD (HL),0
    (0x3280, &[0x2B]),              // DEC HL
    (0x3281, &[0x10, 0xFB]),        // DJNZ BYTE_ZERO
    // BITS_ZERO
    (0x3283, &[0xE6, 0x07]),        // AND 7
    (0x3285, &[0x28, 0x09]),        // JR Z,IX_END
    (0x3287, &[0x47]),              // LD B,A
    (0x3288, &[0x3E, 0xFF]),        // LD A,255
    // LESS_MASK
    (0x328A, &[0xCB, 0x27]),        // SLA A
    (0x328C, &[0x10, 0xFC]),        // DJNZ LESS_MASK
    (0x328E, &[0xA6]),              // AND (HL)
    (0x328F, &[0x77]),              // LD (HL),A
    // IX_END
    (0x3290, &[0xEB]),              // EX DE,HL
    (0x3291, &[0xD1]),              // POP DE
    (0x3292, &[0xC9]),              // RET
];

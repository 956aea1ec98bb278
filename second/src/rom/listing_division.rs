//! Listing 001, `division`, assembled: the address of each instruction, its bytes, and
//! its words as printed.

#[rustfmt::skip]
pub const DIVISION: &[(u16, &[u8])] = &[
    // division
    (0x31AF, &[0xCD, 0x93, 0x32]),  // CALL RE_ST_TWO
    (0x31B2, &[0xEB]),              // EX DE,HL
    (0x31B3, &[0xAF]),              // XOR A
    (0x31B4, &[0xCD, 0xC0, 0x30]),  // CALL PREP_M_D
    (0x31B7, &[0x38, 0xF4]),        // JR C,REPORT_6
    (0x31B9, &[0xEB]),              // EX DE,HL
    (0x31BA, &[0xCD, 0xC0, 0x30]),  // CALL PREP_M_D
    (0x31BD, &[0xD8]),              // RET C
    (0x31BE, &[0xD9]),              // EXX
    (0x31BF, &[0xE5]),              // PUSH HL
    (0x31C0, &[0xD9]),              // EXX
    (0x31C1, &[0xD5]),              // PUSH DE
    (0x31C2, &[0xE5]),              // PUSH HL
    (0x31C3, &[0xCD, 0xBA, 0x2F]),  // CALL FETCH_TWO
    (0x31C6, &[0xD9]),              // EXX
    (0x31C7, &[0xE5]),              // PUSH HL
    (0x31C8, &[0x60]),              // LD H,B
    (0x31C9, &[0x69]),              // LD L,C
    (0x31CA, &[0xD9]),              // EXX
    (0x31CB, &[0x61]),              // LD H,C
    (0x31CC, &[0x68]),              // LD L,B
    (0x31CD, &[0xAF]),              // XOR A
    (0x31CE, &[0x06, 0xDF]),        // LD B,223
    (0x31D0, &[0x18, 0x10]),        // JR DIV_START
    // DIV_LOOP
    (0x31D2, &[0x17]),              // RLA
    (0x31D3, &[0xCB, 0x11]),        // RL C
    (0x31D5, &[0xD9]),              // EXX
    (0x31D6, &[0xCB, 0x11]),        // RL C
    (0x31D8, &[0xCB, 0x10]),        // RL B
    (0x31DA, &[0xD9]),              // EXX
    // DIV_34TH
    (0x31DB, &[0x29]),              // ADD HL,HL
    (0x31DC, &[0xD9]),              // EXX
    (0x31DD, &[0xED, 0x6A]),        // ADC HL,HL
    (0x31DF, &[0xD9]),              // EXX
    (0x31E0, &[0x38, 0x10]),        // JR C,SUBN_ONLY
    // DIV_START
    (0x31E2, &[0xED, 0x52]),        // SBC HL,DE
    (0x31E4, &[0xD9]),              // EXX
    (0x31E5, &[0xED, 0x52]),        // SBC HL,DE
    (0x31E7, &[0xD9]),              // EXX
    (0x31E8, &[0x30, 0x0F]),        // JR NC,NO_RSTORE
    (0x31EA, &[0x19]),              // ADD HL,DE
    (0x31EB, &[0xD9]),              // EXX
    (0x31EC, &[0xED, 0x5A]),        // ADC HL,DE
    (0x31EE, &[0xD9]),              // EXX
    (0x31EF, &[0xA7]),              // AND A
    (0x31F0, &[0x18, 0x08]),        // JR COUNT_ONE
    // SUBN_ONLY
    (0x31F2, &[0xA7]),              // AND A
    (0x31F3, &[0xED, 0x52]),        // SBC HL,DE
    (0x31F5, &[0xD9]),              // EXX
    (0x31F6, &[0xED, 0x52]),        // SBC HL,DE
    (0x31F8, &[0xD9]),              // EXX
    // NO_RSTORE
    (0x31F9, &[0x37]),              // SCF
    // COUNT_ONE
    (0x31FA, &[0x04]),              // INC B
    (0x31FB, &[0xFA, 0xD2, 0x31]),  // JP M,DIV_LOOP
    (0x31FE, &[0xF5]),              // PUSH AF
    (0x31FF, &[0x28, 0xE1]),        // JR Z,DIV_START
    (0x3201, &[0x5F]),              // LD E,A
    (0x3202, &[0x51]),              // LD D,C
    (0x3203, &[0xD9]),              // EXX
    (0x3204, &[0x59]),              // LD E,C
    (0x3205, &[0x50]),              // LD D,B
    (0x3206, &[0xF1]),              // POP AF
    (0x3207, &[0xCB, 0x18]),        // RR B
    (0x3209, &[0xF1]),              // POP AF
    (0x320A, &[0xCB, 0x18]),        // RR B
    (0x320C, &[0xD9]),              // EXX
    (0x320D, &[0xC1]),              // POP BC
    (0x320E, &[0xE1]),              // POP HL
    (0x320F, &[0x78]),              // LD A,B
    (0x3210, &[0x91]),              // SUB C
    (0x3211, &[0xC3, 0x3D, 0x31]),  // JP DIVN_EXPT
];

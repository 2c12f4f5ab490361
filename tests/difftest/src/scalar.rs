//! The scalar meaning of the operations of RV64I and RV64M, and of extending a loaded value.

#[derive(Clone, Copy, PartialEq, Eq, Debug)]
pub enum Function {
    Add,
    Sub,
    Sll,
    Slt,
    Sltu,
    Xor,
    Srl,
    Sra,
    Or,
    And,
    Mul,
    Mulh,
    Mulhsu,
    Mulhu,
    Div,
    Divu,
    Rem,
    Remu,
}

/// The quotient, rounded towards zero, and the remainder; by zero -1 and the dividend. All operands are narrower than
/// 128 bits, so no quotient overflows here: that of the most negative number and -1 becomes itself when it is cut.
fn divided(a: i128, b: i128) -> (i128, i128) {
    if b == 0 {
        (-1, a)
    } else {
        (a / b, a % b)
    }
}

/// The 64-bit form.
pub fn compute64(function: Function, a: u64, b: u64) -> u64 {
    let amount = (b & 63) as u32;
    let (a_signed, b_signed) = (i128::from(a as i64), i128::from(b as i64));
    let (a_unsigned, b_unsigned) = (i128::from(a), i128::from(b));
    match function {
        Function::Add => a.wrapping_add(b),
        Function::Sub => a.wrapping_sub(b),
        Function::Sll => a << amount,
        Function::Slt => u64::from((a as i64) < (b as i64)),
        Function::Sltu => u64::from(a < b),
        Function::Xor => a ^ b,
        Function::Srl => a >> amount,
        Function::Sra => ((a as i64) >> amount) as u64,
        Function::Or => a | b,
        Function::And => a & b,
        Function::Mul => a.wrapping_mul(b),
        Function::Mulh => ((a_signed * b_signed) >> 64) as u64,
        Function::Mulhsu => ((a_signed * b_unsigned) >> 64) as u64,
        Function::Mulhu => ((u128::from(a) * u128::from(b)) >> 64) as u64,
        Function::Div => divided(a_signed, b_signed).0 as u64,
        Function::Divu => divided(a_unsigned, b_unsigned).0 as u64,
        Function::Rem => divided(a_signed, b_signed).1 as u64,
        Function::Remu => divided(a_unsigned, b_unsigned).1 as u64,
    }
}

/// The W form: the low 32 bits of both, and a result that is sign-extended.
/// Comparisons, logical operations and the high halves of products have none, and decoding gives none of them.
pub fn compute32(function: Function, a: u64, b: u64) -> u64 {
    let (a, b) = (a as u32, b as u32);
    let amount = b & 31;
    let (a_signed, b_signed) = (i128::from(a as i32), i128::from(b as i32));
    let (a_unsigned, b_unsigned) = (i128::from(a), i128::from(b));
    let result = match function {
        Function::Add => a.wrapping_add(b),
        Function::Sub => a.wrapping_sub(b),
        Function::Sll => a << amount,
        Function::Srl => a >> amount,
        Function::Sra => ((a as i32) >> amount) as u32,
        Function::Mul => a.wrapping_mul(b),
        Function::Div => divided(a_signed, b_signed).0 as u32,
        Function::Divu => divided(a_unsigned, b_unsigned).0 as u32,
        Function::Rem => divided(a_signed, b_signed).1 as u32,
        Function::Remu => divided(a_unsigned, b_unsigned).1 as u32,
        other => unreachable!("{other:?} has no W form"),
    };
    extend(u64::from(result), 4, true)
}

/// The low `bytes` bytes of a value, extended by sign or by zero.
pub fn extend(value: u64, bytes: u64, signed: bool) -> u64 {
    let unused = 64 - 8 * bytes as u32;
    if signed {
        (((value << unused) as i64) >> unused) as u64
    } else {
        (value << unused) >> unused
    }
}

#!/usr/bin/env python3
"""Wrong evaluators that the comparison must find.

Each edit makes the second evaluator wrong in one place; it is then compared with
the right one on generated records, or its own answers to pairs of queries are
held together: pairs with more paper, or alike but for what isn't read. Prints what became of each, and fails where one isn't found. Takes
a few minutes; `tools/mutants.py [WORD...]` tries those whose names hold one of
the words.
"""

import os
import shutil
import subprocess
import sys
import tempfile

SECOND = os.path.join(os.path.dirname(os.path.abspath(__file__)), "..", "second")
SEED = 2704
COUNT = 24_000
# Records of which pairs with more paper are made.
PAPER_COUNT = 4_000

# Name, file of second/src, what stands there, what takes its place.
EDITS = [
    (
        '% sign',
        'integer.rs',
        'left.wrapping_rem(right)',
        'left.wrapping_rem_euclid(right)',
    ),
    (
        'MIN % -1 error',
        'integer.rs',
        'if right == 0 {\n        Err(Error)',
        'if right == 0 || (left == i32::MIN && right == -1) {\n        Err(Error)',
    ),
    (
        'MIN / -1 wraps',
        'integer.rs',
        'left.checked_div(right).ok_or(Error)',
        'if right == 0 { Err(Error) } else { Ok(left.wrapping_div(right)) }',
    ),
    (
        '1^-1',
        'integer.rs',
        'if exponent < 0 {\n        return Err(Error);',
        'if exponent < 0 && base != 1 {\n        return Err(Error);',
    ),
    (
        '@ rounds toward zero',
        'integer.rs',
        '-whole - part',
        '-whole',
    ),
    (
        '(-2)^31 an error',
        'integer.rs',
        '_ if exponent > 31',
        '_ if exponent > 30',
    ),
    (
        '-MIN wraps',
        'integer.rs',
        'number.checked_neg().ok_or(Error)',
        'Ok(number.wrapping_neg())',
    ),
    (
        'string limit off by one',
        'eval.rs',
        'if front + back > limits::STRING_BYTES',
        'if front + back >= limits::STRING_BYTES',
    ),
    (
        'rounds over unreached',
        'compliance.rs',
        'if reach.holds(authorizer) {',
        'if true {',
    ),
    (
        'missing Licensees 0',
        'compliance.rs',
        'None => top,',
        'None => 0,',
    ),
    (
        'unknown value top',
        'environment.rs',
        'unwrap_or(0) as u8',
        'unwrap_or(self.query.values.len() - 1) as u8',
    ),
    (
        '_VALUES without first',
        'environment.rs',
        "values.join(&b',')",
        "values[1..].join(&b',')",
    ),
    (
        '_ACTION_AUTHORIZERS first only',
        'environment.rs',
        "self.query.requesters.join(&b',')",
        "self.query.requesters[..1].join(&b',')",
    ),
    (
        'two-digit octal',
        'literal.rs',
        "let needed = if digits[0] == b'0' { 2 } else { 3 };",
        'let needed = 3;',
    ),
    (
        '\\000 gives NUL',
        'literal.rs',
        'if count < needed || value == 0 {',
        'if count < needed {',
    ),
    (
        '\\f',
        'literal.rs',
        "b'f' => 0x0c,",
        "b'f' => 0x0b,",
    ),
    (
        'octal above 377 wraps',
        'literal.rs',
        'let byte = u8::try_from(value).ok()?;',
        'let byte = value as u8;',
    ),
    (
        'K above list by one',
        'check.rs',
        'demand(threshold <= listed, NUMBER, token)?;',
        'demand(threshold <= listed + 1, NUMBER, token)?;',
    ),
    (
        'local POLICY refused',
        'identify.rs',
        'match standing == CREDENTIAL && policy {',
        'match standing >= 1 && policy {',
    ),
    (
        'POLICY by reference in credential',
        'identify.rs',
        'match standing == CREDENTIAL && policy {',
        'match standing == CREDENTIAL && policy && matches!(formed.authorizer.nodes.of(&self.store.nodes), [Node::Text(_)]) {',
    ),
    (
        'empty principal',
        'identify.rs',
        'if !limits::PRINCIPAL_BYTES.holds(bytes.len()) {',
        'if bytes.len() > 256 {',
    ),
    (
        'reserved constant',
        'check.rs',
        "let reserved = token.spelling(settings.text)[0] == b'_';",
        'let reserved = false;',
    ),
    (
        '4 before 7 at one place',
        'check.rs',
        'demand(!reserved && !settings.has(token), NAME, token)?;\n                demand(settings.list.len() < limits::CONSTANTS, LIMIT, token)?;',
        'demand(settings.list.len() < limits::CONSTANTS, LIMIT, token)?;\n                demand(!reserved && !settings.has(token), NAME, token)?;',
    ),
    (
        'version late',
        'line.rs',
        'let late = label == Label::Version && !self.listing.fields.is_empty();',
        'let late = false;',
    ),
    (
        'reads after Signature',
        'line.rs',
        'if label == Label::Signature && token.kind == Kind::Literal {',
        'if false {',
    ),
    (
        'blank lines fine',
        'line.rs',
        "None | Some(b'\\n') => fault(LINE, self.place),",
        "None => fault(LINE, self.place), Some(b'\\n') => Ok(()),",
    ),
    (
        'NUL place in comment',
        'line.rs',
        'Some(index) if rest[index] == 0 => return fault(NO_TOKEN, self.place + index),',
        'Some(index) if rest[index] == 0 => return fault(NO_TOKEN, self.place),',
    ),
    (
        'TRUE in capitals',
        'token.rs',
        'name.eq_ignore_ascii_case(b"true")',
        'name == b"true"',
    ),
    (
        '1. as float',
        'token.rs',
        'if fraction > end + 1 {',
        'if fraction > end {',
    ),
    (
        '-of in Conditions',
        'token.rs',
        'let of = licensees && text[start..].starts_with(b"-of");',
        'let of = text[start..].starts_with(b"-of");',
    ),
    (
        'place of repetition',
        'record.rs',
        'if query.values.contains(&value) {\n            return refuse(REPEATED, start);',
        'if query.values.contains(&value) {\n            return refuse(REPEATED, start - 2);',
    ),
    (
        'names by case',
        'record.rs',
        'if query.attributes.iter().any(|earlier| earlier.name == name) {',
        'if query.attributes.iter().any(|earlier| earlier.name.eq_ignore_ascii_case(name)) {',
    ),
    (
        '^ with *',
        'parse.rs',
        'Kind::Caret => POWER,',
        'Kind::Caret => PRODUCT,',
    ),
    (
        '17 brackets',
        'limits.rs',
        'pub const BRACKETS: usize = 16;',
        'pub const BRACKETS: usize = 17;',
    ),
    (
        '17 prefixes',
        'limits.rs',
        'pub const PREFIXES: usize = 16;',
        'pub const PREFIXES: usize = 17;',
    ),
    (
        'literal of 2,049',
        'limits.rs',
        'pub const LITERAL_BYTES: usize = 2_048;',
        'pub const LITERAL_BYTES: usize = 2_049;',
    ),
    (
        '17 constants',
        'limits.rs',
        'pub const CONSTANTS: usize = 16;',
        'pub const CONSTANTS: usize = 17;',
    ),
    (
        'principal of 257',
        'limits.rs',
        'Range::new(1, 256);\npub const INTEGER',
        'Range::new(1, 257);\npub const INTEGER',
    ),
    (
        'string of 4,097',
        'limits.rs',
        'pub const STRING_BYTES: usize = 4_096;',
        'pub const STRING_BYTES: usize = 4_097;',
    ),
    (
        'literal 2^31',
        'limits.rs',
        'INTEGER_LITERAL: u32 = 2_147_483_647',
        'INTEGER_LITERAL: u32 = 2_147_483_648',
    ),
    (
        'name of 2,049',
        'limits.rs',
        'pub const NAME_BYTES: Range = Range::new(1, 2_048);',
        'pub const NAME_BYTES: Range = Range::new(1, 2_049);',
    ),
    (
        '201 assertions',
        'limits.rs',
        'pub const ASSERTIONS: Range = Range::new(0, 200);',
        'pub const ASSERTIONS: Range = Range::new(0, 201);',
    ),
    (
        '199 assertions',
        'limits.rs',
        'pub const ASSERTIONS: Range = Range::new(0, 200);',
        'pub const ASSERTIONS: Range = Range::new(0, 199);',
    ),
    (
        'stops at 200 rounds',
        'compliance.rs',
        'if next == ranks {',
        'if rounds >= 200 || next == ranks {',
    ),
    (
        'numbers of principals in a byte and three bits',
        'compliance.rs',
        'principals.number(store.show(query, *piece)) as u16',
        'principals.number(store.show(query, *piece)) as u16 % 2_048',
    ),
    (
        'pattern of 257',
        'limits.rs',
        'pub const PATTERN_BYTES: usize = 256;',
        'pub const PATTERN_BYTES: usize = 257;',
    ),
    (
        'pattern of 255',
        'limits.rs',
        'pub const PATTERN_BYTES: usize = 256;',
        'pub const PATTERN_BYTES: usize = 255;',
    ),
    (
        'pattern: . takes no newline',
        'pattern.rs',
        'Step::AnyByte(next) => (byte.is_some(), 1, next),',
        "Step::AnyByte(next) => (byte.is_some_and(|byte| byte != b'\\n'), 1, next),",
    ),
    (
        'pattern: $ before a last newline',
        'pattern.rs',
        'Step::End(next) => (byte.is_none(), 0, next),',
        "Step::End(next) => (byte.is_none() || string[place..] == [b'\\n'], 0, next),",
    ),
    (
        'pattern: ^ anywhere',
        'pattern.rs',
        'Step::Start(next) => (place == 0, 0, next),',
        'Step::Start(next) => (true, 0, next),',
    ),
    (
        'pattern: only from the start',
        'pattern.rs',
        '(0..width).any(',
        '(0..1).any(',
    ),
    (
        'pattern: not at the end',
        'pattern.rs',
        '(0..width).any(',
        '(0..string.len().max(1)).any(',
    ),
    (
        'pattern: + as *',
        'pattern.rs',
        "Some(b'+') => Repeat::Some,",
        "Some(b'+') => Repeat::Any,",
    ),
    (
        'pattern: [^ as [',
        'pattern.rs',
        'if others { set.others() } else { set }',
        'if others { set } else { set }',
    ),
    (
        'pattern: a falling range',
        'pattern.rs',
        'last if last < byte => Err(Fault::Falling),',
        '',
    ),
    (
        'pattern: a "-" inside',
        'pattern.rs',
        'Some(_) => Err(Fault::Hyphen),',
        'Some(_) => Ok(()),',
    ),
    (
        'pattern: [[:a:]]',
        'pattern.rs',
        'return Err(Fault::Class);',
        '',
    ),
    (
        'pattern: { is a byte',
        'pattern.rs',
        "b'{' => Err(Fault::Curly),",
        '',
    ),
    (
        'pattern: any escape',
        'pattern.rs',
        'filter(|byte| SPECIAL.contains(byte))',
        'filter(|byte| *byte > 0)',
    ),
    (
        'pattern: an empty branch',
        'pattern.rs',
        '_ => Err(Fault::NoPiece),',
        '_ => Ok(Tree::Pieces(Vec::new())),',
    ),
    (
        'pattern: ^* repeats',
        'pattern.rs',
        "if self.accept(b'^') {\n            return Ok(Tree::Start);",
        "if self.accept(b'^') {\n            self.accept(b'*');\n            return Ok(Tree::Start);",
    ),
    (
        'pattern: none is a miss',
        'eval.rs',
        'found.map_err(|_| Error)',
        'Ok(found.unwrap_or(false))',
    ),
    (
        'pattern: a way is tried once for all places',
        'pattern.rs',
        'let bit = usize::from(number) * (string.len() + 1) + place;',
        'let bit = usize::from(number) * (string.len() + 1);',
    ),
    (
        'attribute of 2,049',
        'limits.rs',
        'pub const ATTRIBUTE_BYTES: Range = Range::new(0, 2_048);',
        'pub const ATTRIBUTE_BYTES: Range = Range::new(0, 2_049);',
    ),
    (
        'requester of 257',
        'limits.rs',
        'pub const REQUESTER_BYTES: Range = Range::new(1, 256);',
        'pub const REQUESTER_BYTES: Range = Range::new(1, 257);',
    ),
    (
        'record of 65,535',
        'limits.rs',
        'pub const RECORD_BYTES: usize = 65_535;',
        'pub const RECORD_BYTES: usize = 65_534;',
    ),
    (
        'no value is top - 1',
        'eval.rs',
        '                Node::Top => rank = top,',
        '                Node::Top => rank = rank.max(top - 1),',
    ),
    (
        'last clause counts',
        'eval.rs',
        'rank = rank.max(self.environment.rank(self.bytes(&value)));',
        'rank = self.environment.rank(self.bytes(&value));',
    ),
    (
        'shorter string is less',
        'eval.rs',
        '_ => holds(comparison, first.cmp(second)),',
        '_ => holds(comparison, first.len().min(9).cmp(&second.len().min(9)).then(first.cmp(second))),',
    ),
    (
        'constants not seen in Conditions',
        'assertion.rs',
        '                    seen = constants;\n',
        '',
    ),
    (
        'empty constant does not hide',
        'environment.rs',
        'if show(constant.name) == name {',
        'if show(constant.name) == name && !show(constant.value).is_empty() {',
    ),
    (
        'digits wrap',
        'token.rs',
        'value.saturating_mul(10).saturating_add',
        'value.wrapping_mul(10).wrapping_add',
    ),
    (
        'place of text before labels',
        'line.rs',
        'Some(_) if self.open_label().is_none() => fault(LINE, self.place),',
        'Some(_) if self.open_label().is_none() => fault(LINE, self.place + indent),',
    ),
    (
        'K above 16',
        'check.rs',
        'demand(limits::THRESHOLD.holds(token.value as usize), NUMBER, token)?;',
        'demand(token.value >= 1, NUMBER, token)?;',
    ),
    (
        'K-th lowest',
        'compliance.rs',
        'right.cmp(left)',
        'left.cmp(right)',
    ),
    (
        'stops at 12 rounds',
        'compliance.rs',
        'if next == ranks {',
        'if rounds >= 12 || next == ranks {',
    ),
    (
        'POLICY may ask',
        'record.rs',
        'if requester == POLICY {',
        'if false {',
    ),
    (
        'policy may not ask',
        'record.rs',
        'if requester == POLICY {',
        'if requester.eq_ignore_ascii_case(POLICY) {',
    ),
    (
        'keys by bytes',
        'principal.rs',
        'forms[start..][..folded(identifier)].make_ascii_lowercase();',
        '',
    ),
    (
        'keys by the front only',
        'principal.rs',
        'true => identifier.len(),',
        'true => front,',
    ),
    (
        'every key without case',
        'principal.rs',
        'false => front,',
        'false => identifier.len(),',
    ),
    (
        'identifiers without a colon fold',
        'principal.rs',
        "if !identifier.contains(&b':') {\n        return 0;",
        "if !identifier.contains(&b':') {\n        return identifier.len();",
    ),
    (
        'up to the last colon',
        'principal.rs',
        "identifier.iter().take_while(|&&byte| byte != b':').count();",
        "identifier.iter().rposition(|&byte| byte == b':').unwrap_or(0);",
    ),
    (
        'rsa-hex in small letters only',
        'principal.rs',
        'algorithm.eq_ignore_ascii_case(name)',
        'algorithm == *name',
    ),
    (
        'any algorithm that begins with rsa-hex',
        'principal.rs',
        'algorithm.eq_ignore_ascii_case(name)',
        'algorithm.to_ascii_lowercase().starts_with(name)',
    ),
    (
        'any algorithm that ends with rsa-hex',
        'principal.rs',
        'algorithm.eq_ignore_ascii_case(name)',
        'algorithm.to_ascii_lowercase().ends_with(name)',
    ),
    (
        'bytes above 127 and brackets fold',
        'principal.rs',
        '.make_ascii_lowercase();',
        '.iter_mut().for_each(|byte| *byte |= if *byte >= 0x40 { 0x20 } else { 0 });',
    ),
    (
        'bytes above 127 fold as Latin letters',
        'principal.rs',
        '.make_ascii_lowercase();',
        '.iter_mut().for_each(|byte| *byte |= if byte.is_ascii_uppercase() || (0xc0..0xdf).contains(byte) { 0x20 } else { 0 });',
    ),
    (
        '_ACTION_AUTHORIZERS in canonical form',
        'environment.rs',
        "self.query.requesters.join(&b',')",
        "self.query.requesters.iter().map(|key| crate::principal::form_of(key)).collect::<Vec<_>>().join(&b',')",
    ),
    (
        'values by canonical form',
        'environment.rs',
        '|known| *known == value',
        '|known| crate::principal::form_of(known) == crate::principal::form_of(value)',
    ),
    (
        'strings by canonical form',
        'eval.rs',
        'Comparison::Equal => first == second,',
        'Comparison::Equal => crate::principal::form_of(first) == crate::principal::form_of(second),',
    ),
    (
        'requesters by bytes',
        'compliance.rs',
        'Some(number) if reach.holds(number)',
        'Some(number) if reach.holds(number) && store.principals.iter().any(|piece| store.show(query, *piece) == *requester)',
    ),
    (
        'requesters in round 1 only',
        'compliance.rs',
        'next.copy_from_slice(direct);',
        'next.fill(0);',
    ),
    (
        'reach by the first licensee only',
        'compliance.rs',
        'let new = listed.iter()',
        'let new = listed.iter().take(1)',
    ),
    (
        'first clause with a value counts',
        'eval.rs',
        'while at < last && rank < top {',
        'while at < last && rank == 0 {',
    ),
    (
        '- binds as *',
        'parse.rs',
        'Kind::Plus | Kind::Minus | Kind::Dot => SUM,',
        'Kind::Plus | Kind::Dot => SUM,\n        Kind::Minus => PRODUCT,',
    ),
    (
        'tie to odd',
        'float.rs',
        'fraction % 2 == 1',
        'fraction % 2 == 0',
    ),
    (
        'ties up',
        'float.rs',
        'let up = if tie { fraction % 2 == 1 } else { lost >= half };',
        'let up = lost >= half;',
    ),
    (
        'ties down',
        'float.rs',
        'if tie { fraction % 2 == 1 }',
        'if tie { false }',
    ),
    (
        'floats rounded down',
        'float.rs',
        'let up = if tie',
        'let up = false && if tie',
    ),
    (
        'rest of a tie forgotten',
        'float.rs',
        'lost == half && rest == 0',
        'lost == half',
    ),
    (
        'by way of f64',
        'float.rs',
        'ratio(decimal.digits, 10u64.pow(decimal.places))',
        '(decimal.digits as f64 / 10f64.powi(decimal.places as i32)) as f32',
    ),
    (
        'by way of f32',
        'float.rs',
        'ratio(decimal.digits, 10u64.pow(decimal.places))',
        'decimal.digits as f32 / 10f32.powi(decimal.places as i32)',
    ),
    (
        'sign of a float lost',
        'float.rs',
        'if decimal.negative {',
        'if false {',
    ),
    (
        'infinite let through',
        'float.rs',
        'if result.is_finite() {',
        'if !result.is_nan() {',
    ),
    (
        'subnormal flushed',
        'float.rs',
        '        Ok(result)\n',
        '        Ok(if result.is_subnormal() { 0.0 } else { result })\n',
    ),
    (
        'subnormal an error',
        'float.rs',
        'if result.is_finite() {',
        'if result.is_finite() && !result.is_subnormal() {',
    ),
    (
        'equality of floats kept',
        'parse.rs',
        '(Type::Float, Type::Float) if !equality =>',
        '(Type::Float, Type::Float) =>',
    ),
    (
        '% of floats kept',
        'parse.rs',
        'Kind::Caret => Operation::Power,\n        _ => return None,',
        'Kind::Caret => Operation::Power,\n        _ => Operation::Divide,',
    ),
    (
        'float of 19 digits',
        'limits.rs',
        'pub const FLOAT_DIGITS: usize = 18;',
        'pub const FLOAT_DIGITS: usize = 19;',
    ),
    (
        'float of 17 digits',
        'limits.rs',
        'pub const FLOAT_DIGITS: usize = 18;',
        'pub const FLOAT_DIGITS: usize = 17;',
    ),
    (
        'literal of 19 digits kept',
        'check.rs',
        'Kind::Float => demand(float_digits(token) <= limits::FLOAT_DIGITS, LIMIT, token)?,',
        'Kind::Float => demand(float_digits(token) <= limits::FLOAT_DIGITS + 1, LIMIT, token)?,',
    ),
    (
        'literal of 19 digits reason 8',
        'check.rs',
        'limits::FLOAT_DIGITS, LIMIT, token)',
        'limits::FLOAT_DIGITS, 8, token)',
    ),
    (
        'text of 19 digits kept',
        'float.rs',
        'if count < limits::FLOAT_DIGITS =>',
        'if count <= limits::FLOAT_DIGITS =>',
    ),
    (
        'zeros in front not counted',
        'float.rs',
        'if count < limits::FLOAT_DIGITS =>',
        'if decimal.digits < 100_000_000_000_000_000 =>',
    ),
    (
        '"&" takes no whole number',
        'float.rs',
        'let complete = count > 0 &&',
        'let complete = point.is_some() &&',
    ),
    (
        '"&" takes "1."',
        'float.rs',
        'let complete = count > 0 && point != Some(count);',
        'let complete = count > 0;',
    ),
    (
        '"&" takes ".5"',
        'float.rs',
        "b'.' if point.is_none() && count > 0 =>",
        "b'.' if point.is_none() =>",
    ),
    (
        '"&" takes "+1"',
        'float.rs',
        '        _ => (false, text),\n',
        "        [b'+', rest @ ..] => (false, rest),\n        _ => (false, text),\n",
    ),
    (
        '"&" takes spaces',
        'float.rs',
        'read(text).map_or(0.0, nearest)',
        'read(text.trim_ascii()).map_or(0.0, nearest)',
    ),
    (
        '"&" rounds as "@"',
        'float.rs',
        'read(text).map_or(0.0, nearest)',
        'read(text).map_or(0.0, nearest).floor()',
    ),
    (
        'exponent of 65',
        'limits.rs',
        'pub const FLOAT_EXPONENT: f32 = 64.0;',
        'pub const FLOAT_EXPONENT: f32 = 65.0;',
    ),
    (
        'exponent of 63',
        'limits.rs',
        'pub const FLOAT_EXPONENT: f32 = 64.0;',
        'pub const FLOAT_EXPONENT: f32 = 63.0;',
    ),
    (
        'exponent cut',
        'float.rs',
        'exponent.trunc() == exponent && (0.0',
        '(0.0',
    ),
    (
        'exponent of negative zero',
        'float.rs',
        'let whole = exponent.trunc()',
        'let whole = exponent.is_sign_positive() && exponent.trunc()',
    ),
    (
        'power rounds once',
        'float.rs',
        '(0..exponent as u32).try_fold(1.0, |product, _| multiply(product, base))',
        'finite(f64::from(base).powi(exponent as i32) as f32)',
    ),
    (
        'power by squares',
        'float.rs',
        '(0..exponent as u32).try_fold(1.0, |product, _| multiply(product, base))',
        'finite(base.powi(exponent as i32))',
    ),
    (
        'negative zero below zero',
        'eval.rs',
        'left.partial_cmp(&right).expect("errors are no floats")',
        'left.total_cmp(&right)',
    ),
    (
        '"-" of a float forgotten',
        'eval.rs',
        'Value::Float(-self.pop_float())',
        'Value::Float(self.pop_float())',
    ),
    (
        'floats subtracted backward',
        'eval.rs',
        'float::subtract(left, right)',
        'float::subtract(right, left)',
    ),
    (
        'an error of floats is zero',
        'eval.rs',
        '        result.map(Value::Float)\n',
        '        Ok(Value::Float(result.unwrap_or(0.0)))\n',
    ),
    (
        'a long identifier by reference',
        'identify.rs',
        'if !limits::PRINCIPAL_BYTES.holds(bytes.len()) {',
        'if bytes.is_empty() || (literal.is_some() && bytes.len() > 256) {',
    ),
    (
        'reason 7 for a long identifier',
        'identify.rs',
        '            return Err(fault);\n',
        '            return Err(Fault { reason: if bytes.is_empty() { IDENTIFIER } else { 7 }, ..fault });\n',
    ),
    (
        'reason 4 for an unset name',
        'identify.rs',
        '            return Err(fault);\n',
        '            let named = matches!(expression.nodes.of(&self.store.nodes), [Node::Name(_)]);\n            return Err(Fault { reason: if named && bytes.is_empty() { 4 } else { IDENTIFIER }, ..fault });\n',
    ),
    (
        'an identifier that is an error kept',
        'identify.rs',
        '.map_err(|_| fault)?, None)',
        '.unwrap_or(b"error"), None)',
    ),
    (
        'an error inside an identifier is empty',
        'eval.rs',
        '            self.step(node)?;\n',
        '            if self.step(node).is_err() {\n                self.built.clear();\n                self.stack.retain(|value| matches!(value, Value::Lent(_)));\n                self.stack.push(Value::Lent(b""));\n            }\n',
    ),
    (
        'the later place first',
        'identify.rs',
        '.chain(licensees.err()).min()',
        '.chain(licensees.err()).max()',
    ),
    (
        'Authorizer first wherever it stands',
        'identify.rs',
        '.chain(licensees.err()).min()',
        '.chain(licensees.err()).next()',
    ),
    (
        'Licensees first wherever it stands',
        'identify.rs',
        'authorizer.err().into_iter().chain(licensees.err()).min()',
        'licensees.err().into_iter().chain(authorizer.err()).next()',
    ),
    (
        'later constants in Authorizer',
        'identify.rs',
        'self.identifier(&formed.authorizer, formed.authorizer_constants)?',
        'self.identifier(&formed.authorizer, formed.constants)?',
    ),
    (
        'no constants in Authorizer',
        'identify.rs',
        'self.identifier(&formed.authorizer, formed.authorizer_constants)?',
        'self.identifier(&formed.authorizer, Row::default())?',
    ),
    (
        'no constants in Licensees',
        'identify.rs',
        'self.identifier(expression, fields.constants)?',
        'self.identifier(expression, Row::default())?',
    ),
    (
        'no special names in identifiers',
        'identify.rs',
        '            _ => (self.evaluator',
        "            ref nodes\n                if nodes.iter().any(|node| matches!(node, Node::Name(name) if self.store.show(self.query, *name)[0] == b'_')) =>\n            {\n                return Err(fault)\n            }\n            _ => (self.evaluator",
    ),
    (
        'a bare name is a constant only',
        'identify.rs',
        '            _ => (self.evaluator',
        '            [Node::Name(name)]\n                if !constants\n                    .of(&self.store.constants)\n                    .iter()\n                    .any(|one| self.store.show(self.query, one.name) == self.store.show(self.query, name)) =>\n            {\n                return Err(fault)\n            }\n            _ => (self.evaluator',
    ),
    (
        'only the first licensee evaluated',
        'identify.rs',
        'let (piece, _) = self.identifier(expression, fields.constants)?;',
        'let piece = match self.identifier(expression, fields.constants) {\n                Err(fault) if self.principals.len() == first => return Err(fault),\n                found => found.map_or(Piece::EMPTY, |(piece, _)| piece),\n            };',
    ),
    (
        'nothing evaluated where Conditions are empty',
        'identify.rs',
        '            Err(found) => *fault',
        '            Err(_) if formed.conditions.is_some_and(|row| row.first == row.last) => {}\n            Err(found) => *fault',
    ),
    (
        'only reached identifiers evaluated',
        'lib.rs',
        '    write_report(&reading.faults, report);\n',
        '    let reach = reach::of(&query, &reading);\n    let names = Environment::new(&query, &reading.store);\n    let mut evaluator = eval::Evaluator::new(&names);\n    let mut faults = reading.faults.to_vec();\n    for (formed, fault) in reading.formed.iter().zip(&mut faults) {\n        let Some(formed) = formed.filter(|formed| fault.is_some_and(|fault| fault.place != formed.authorizer.place)) else { continue };\n        let name = evaluator.string(formed.authorizer.nodes, formed.authorizer_constants);\n        if !reach.holds(name.unwrap_or_default()) {\n            *fault = None;\n        }\n    }\n    write_report(&faults, report);\n',
    ),
    (
        '10 at Authorizer before reasons 1 to 8',
        'check.rs',
        '    tokens.iter().try_for_each(|token| string.count(token))\n',
        '    tokens.iter().try_for_each(|token| string.count(token))?;\n    match tokens {\n        [token] if token.kind == Kind::Literal => demand(token.value > 0, IDENTIFIER, token),\n        _ => Ok(()),\n    }\n',
    ),
    (
        '10 at a licensee before reasons 1 to 8',
        'check.rs',
        '                occurrences += 1;\n',
        '                let next = tokens.iter().find(|next| next.start > token.start).map(|next| next.kind);\n                demand(token.kind != Kind::Literal || token.value > 0 || next == Some(Kind::Dot), IDENTIFIER, token)?;\n                occurrences += 1;\n',
    ),
    (
        '9 before reasons 1 to 8',
        'assertion.rs',
        'let found = [listing.fault, checked].into_iter()',
        'let root = listing.field(Label::Authorizer).map(|field| listing.tokens_of(field)).and_then(|tokens| match tokens {\n        [token] if statement.standing == 2 && token.spelling(statement.text) == b"\\"POLICY\\"" => {\n            Some(Fault { place: token.place(), reason: STANDING })\n        }\n        _ => None,\n    });\n    let found = [listing.fault, checked, root].into_iter()',
    ),
    (
        'place at the bracket',
        'licence.rs',
        '                Some(inner)\n',
        '                Some(match inner {\n                    Part::Text(expression) => Part::Text(Expression { place: token.place(), ..expression }),\n                    part => part,\n                })\n',
    ),
    (
        'place behind "$"',
        'licence.rs',
        '            self.text(PREFIX)?;\n            self.store.nodes.push(Node::Dereference);\n            return Some(self.expression(begun));',
        '            let inner = self.text(PREFIX)?;\n            self.store.nodes.push(Node::Dereference);\n            return Some(self.expression(Expression { place: inner.place, ..begun }));',
    ),
    (
        'place at the last part',
        'licence.rs',
        '            self.text(least)?;\n            self.store.nodes.push(Node::Join);\n            return Some(self.expression(front));',
        '            let back = self.text(least)?;\n            self.store.nodes.push(Node::Join);\n            return Some(self.expression(Expression { place: back.place, ..front }));',
    ),
    (
        '"." before "$"',
        'licence.rs',
        'self.text(PREFIX)?;',
        'self.text(JOIN)?;',
    ),
    (
        'literals and names counted as licensees',
        'check.rs',
        'Kind::Literal | Kind::Name | Kind::Word | Kind::Dollar if !continued => {',
        'Kind::Literal | Kind::Name | Kind::Word => {',
    ),
    (
        '"$" and its name two licensees',
        'check.rs',
        'Kind::Dot | Kind::Dollar => true,',
        'Kind::Dot => true,',
    ),
    (
        'a bracket begins a licensee',
        'check.rs',
        '            Kind::Open => continued,\n',
        '',
    ),
    (
        '17th licensee at its bracket',
        'check.rs',
        '            Kind::Close if string.brackets.0 == around => {',
        '            Kind::Open if !continued && occurrences == limits::LICENSEES && string.brackets.0 > around + 1 => {\n                return demand(false, LIMIT, token);\n            }\n            Kind::Close if string.brackets.0 == around => {',
    ),
    (
        'K tested at a bracket inside',
        'check.rs',
        'Kind::Close if string.brackets.0 == around => {',
        'Kind::Close => {',
    ),
    (
        '15 "$" in a principal',
        'check.rs',
        '        self.prefixes = if token.kind == Kind::Dollar { self.prefixes + 1 } else { 0 };\n        demand(self.prefixes <= limits::PREFIXES',
        '        self.prefixes = if token.kind == Kind::Dollar { self.prefixes + 1 } else { 0 };\n        demand(self.prefixes < limits::PREFIXES',
    ),
    (
        'a bracket ends no row of "$"',
        'check.rs',
        '        self.prefixes = if token.kind == Kind::Dollar { self.prefixes + 1 } else { 0 };\n',
        '        self.prefixes = match token.kind {\n            Kind::Dollar => self.prefixes + 1,\n            Kind::Open => self.prefixes,\n            _ => 0,\n        };\n',
    ),
    (
        'a literal of 2,049 bytes in a principal',
        'check.rs',
        '        self.brackets.count(token)?;\n        literal_bytes(token)\n',
        '        self.brackets.count(token)\n',
    ),
    (
        'brackets in Authorizer not counted',
        'check.rs',
        '    tokens.iter().try_for_each(|token| string.count(token))\n',
        '    tokens.iter().filter(|token| token.kind != Kind::Open).try_for_each(|token| string.count(token))\n',
    ),
    (
        'no brackets in Authorizer',
        'grammar.rs',
        '    ("StrUnary", "( StrEx )"),\n',
        '',
    ),
    (
        'no joined strings in Licensees',
        'grammar.rs',
        '    ("PrincList", "PrincList , StrEx"),\n    ("StrEx", "StrEx . StrUnary"),\n',
        '    ("PrincList", "PrincList , StrEx"),\n',
    ),
    (
        'licensees in a K-of list',
        'grammar.rs',
        '    ("PrincList", "StrEx"),\n    ("PrincList", "PrincList , StrEx"),\n',
        '    ("PrincList", "PrincOr"),\n    ("PrincList", "PrincList , StrEx"),\n',
    ),
    (
        'identifiers in 65,536 bytes',
        'store.rs',
        'Self { start: start as u32,',
        'Self { start: u32::from(start as u16),',
    ),
]

# Found by pairs with more paper alone, without the right evaluator.
PAPER = [
    (
        'paper: the last assertion counts',
        'compliance.rs',
        'next[assertion.authorizer] = next[assertion.authorizer].max(rank);',
        'next[assertion.authorizer] = rank;',
    ),
    (
        'paper: ranks within a round',
        'compliance.rs',
        'licensees_rank(licences, &licensees[first..], &ranks)',
        'licensees_rank(licences, &licensees[first..], &next)',
    ),
    (
        'paper: reach by the last assertion only',
        'compliance.rs',
        'index = usize::from(before[index]);',
        'index = usize::from(NONE);',
    ),
    (
        'paper: rounds over unreached',
        'compliance.rs',
        'if reach.holds(authorizer) {',
        'if true {',
    ),
    (
        'paper: entries of kept assertions first',
        'lib.rs',
        'write_report(&reading.faults, report);',
        'let mut faults = reading.faults.to_vec();\n    faults.sort();\n    write_report(&faults, report);',
    ),
]

# Found by pairs alike but for what isn't read, made by a wrong notion of that.
READ = [
    (
        "read: names in Authorizer aren't",
        'unread.rs',
        '        marks.mark(formed.authorizer.nodes, formed.authorizer_constants);\n',
        '',
    ),
    (
        "read: names in Licensees aren't",
        'unread.rs',
        '                marks.mark(expression.nodes, fields.constants);\n',
        '',
    ),
    (
        'read: "$" in a principal isn\'t',
        'unread.rs',
        '                marks.mark(expression.nodes, fields.constants);\n',
        '                if !expression.nodes.of(&reading.store.nodes).contains(&Node::Dereference) {\n                    marks.mark(expression.nodes, fields.constants);\n                }\n',
    ),
    (
        'read: "$" in Authorizer isn\'t',
        'unread.rs',
        '        marks.mark(formed.authorizer.nodes, formed.authorizer_constants);\n',
        '        if !formed.authorizer.nodes.of(&reading.store.nodes).contains(&Node::Dereference) {\n            marks.mark(formed.authorizer.nodes, formed.authorizer_constants);\n        }\n',
    ),
    (
        'read: only by assertions that are kept',
        'unread.rs',
        'reading.formed.iter().flatten()',
        'reading.formed.iter().zip(&reading.faults).filter(|(_, fault)| fault.is_none()).filter_map(|(formed, _)| formed.as_ref())',
    ),
    (
        'read: only by assertions that are reached',
        'unread.rs',
        '    for formed in reading.formed.iter().flatten() {\n',
        '    let names = crate::environment::Environment::new(query, &reading.store);\n    let mut evaluator = crate::eval::Evaluator::new(&names);\n    for formed in reading.formed.iter().flatten() {\n        let name = evaluator.string(formed.authorizer.nodes, formed.authorizer_constants);\n        if !reach.holds(name.unwrap_or_default()) {\n            continue;\n        }\n',
    ),
    (
        'read: later constants hide a name',
        'unread.rs',
        'marks.mark(formed.authorizer.nodes, formed.authorizer_constants);',
        'marks.mark(formed.authorizer.nodes, formed.constants);',
    ),
    (
        'read: "$" in Conditions isn\'t',
        'unread.rs',
        '            marks.mark(assertion.conditions.unwrap_or_default(), assertion.constants);\n',
        '            let nodes = assertion.conditions.unwrap_or_default();\n            if !nodes.of(&reading.store.nodes).contains(&Node::Dereference) {\n                marks.mark(nodes, assertion.constants);\n            }\n',
    ),
]

HARNESS = """
fn wrong(record: &[u8], page: &mut [u8]) -> second::Outcome {
    let o = mutant::answer(record, page);
    second::Outcome { number: o.number, place: o.place, rank: o.rank, rounds: o.rounds, reached: o.reached }
}

fn main() {
    let found = match std::env::args().nth(1).as_deref() {
        Some("paper") => second::paper::run(wrong, SEED, PAPER_COUNT).is_err(),
        Some(_) => mutant::compare::run(mutant::answer, mutant::answer, SEED, COUNT).is_err(),
        None => second::compare::run(second::answer, wrong, SEED, COUNT).is_err(),
    };
    std::process::exit(if found { 0 } else { 3 });
}
"""


def manifest(name, dependencies):
    lines = ["[package]", f'name = "{name}"', 'version = "0.1.0"', 'edition = "2021"', "[dependencies]"]
    lines += [f'{crate} = {{ path = "{path}" }}' for crate, path in dependencies]
    return "\n".join(lines + ["[profile.release]", "opt-level = 1", "incremental = true", ""])


def write(path, text):
    os.makedirs(os.path.dirname(path), exist_ok=True)
    with open(path, "w", encoding="utf-8") as file:
        file.write(text)


def prepare(folder):
    """A crate that compares the second evaluator with an edited copy."""
    shutil.copytree(os.path.join(SECOND, "src"), os.path.join(folder, "mutant", "src"))
    shutil.rmtree(os.path.join(folder, "mutant", "src", "bin"))
    os.remove(os.path.join(folder, "mutant", "src", "main.rs"))
    write(os.path.join(folder, "mutant", "Cargo.toml"), manifest("mutant", []))
    crates = [("second", os.path.abspath(SECOND)), ("mutant", "../mutant")]
    write(os.path.join(folder, "harness", "Cargo.toml"), manifest("harness", crates))
    harness = HARNESS.replace("SEED", str(SEED)).replace("PAPER_COUNT", str(PAPER_COUNT)).replace("COUNT", str(COUNT))
    write(os.path.join(folder, "harness", "src", "main.rs"), harness)


def tried(folder, arguments, file, old, new):
    """What became of an edit; the file is put back."""
    path = os.path.join(folder, "mutant", "src", file)
    with open(path, encoding="utf-8") as source:
        text = source.read()
    if old not in text:
        return "has no place"
    write(path, text.replace(old, new, 1))
    command = ["cargo", "run", "--offline", "--release", "--quiet"]
    folder = os.path.join(folder, "harness")
    built = subprocess.run(command[:1] + ["build"] + command[2:], cwd=folder, capture_output=True, text=True)
    done = built if built.returncode else subprocess.run(command + arguments, cwd=folder, capture_output=True, text=True)
    write(path, text)
    if built.returncode:
        return "doesn't compile"
    # A wrong evaluator that panics is found as well.
    return "survives" if done.returncode == 3 else "found"


def main():
    words = sys.argv[1:]
    failed = 0
    with tempfile.TemporaryDirectory() as folder:
        prepare(folder)
        edits = [([], *edit) for edit in EDITS] + [(["paper"], *edit) for edit in PAPER]
        edits += [(["read"], *edit) for edit in READ]
        for arguments, name, file, old, new in edits:
            if words and not any(word in name for word in words):
                continue
            outcome = tried(folder, arguments, file, old, new)
            failed += outcome != "found"
            print(f"{outcome}: {name}", flush=True)
    sys.exit(1 if failed else 0)


if __name__ == "__main__":
    main()

//! Whether a key fits a seal, and otherwise why not.

use crate::seals::seal::Seal;
use coset::cbor::value::Integer;
use coset::iana::{Ec2KeyParameter, EllipticCurve, EnumI64, KeyType};
use coset::{CoseKey, Label, RegisteredLabel, RegisteredLabelWithPrivate, iana};
use coset_cwt::{KeyKind, Row, Sealed, fits, is_for, row_for};

/// Whether a key fits a seal. Otherwise, the first of these reasons against it.
#[derive(Clone, Copy, Debug, PartialEq, Eq)]
pub enum Verdict {
    /// The key fits.
    Fits,
    /// The protected header names no algorithm, or one that isn't for such a seal in the table of
    /// `cwt_keys`.
    Algorithm,
    /// The key is of another type.
    Kty,
    /// The key is on another curve.
    Crv,
    /// A member of the key is absent or of another length, or the signature or MAC has another one.
    Length,
    /// The key's `alg` is absent or another one.
    Alg,
    /// The key's `key_ops` have no operation for such a seal.
    KeyOps,
    /// The layer names another key identifier.
    Kid,
}

impl Verdict {
    /// Returns the verdict's word.
    pub fn name(self) -> &'static str {
        match self {
            Verdict::Fits => "fits",
            Verdict::Algorithm => "algorithm",
            Verdict::Kty => "kty",
            Verdict::Crv => "crv",
            Verdict::Length => "length",
            Verdict::Alg => "alg",
            Verdict::KeyOps => "key_ops",
            Verdict::Kid => "kid",
        }
    }
}

/// Returns the type of the keys of this kind.
fn type_of(kind: KeyKind) -> KeyType {
    match kind {
        KeyKind::NistCurve | KeyKind::Ec2(_) => KeyType::EC2,
        KeyKind::EdwardsCurve | KeyKind::Okp(_) => KeyType::OKP,
        KeyKind::Rsa => KeyType::RSA,
        KeyKind::HssLms => KeyType::HSS_LMS,
        KeyKind::WalnutDsa => KeyType::WalnutDSA,
        KeyKind::Akp(_) => KeyType::AKP,
        KeyKind::Symmetric(_) | KeyKind::SymmetricFrom(_) => KeyType::Symmetric,
    }
}

/// Returns true if the key is on a curve of this kind, or if the kind has none.
fn has_curve(key: &CoseKey, kind: KeyKind) -> bool {
    let curves: &[EllipticCurve] = match &kind {
        KeyKind::NistCurve => &[
            EllipticCurve::P_256,
            EllipticCurve::P_384,
            EllipticCurve::P_521,
        ],
        KeyKind::EdwardsCurve => &[EllipticCurve::Ed25519, EllipticCurve::Ed448],
        KeyKind::Ec2(curve) | KeyKind::Okp(curve) => std::slice::from_ref(curve),
        _ => return true,
    };
    let curve = key.get(&Label::Int(Ec2KeyParameter::Crv.to_i64()));
    let curve = curve.and_then(|value| value.as_integer());
    curves
        .iter()
        .any(|allowed| curve == Some(Integer::from(allowed.to_i64())))
}

/// Returns the reason against a key whose other members were made to fit.
fn kind_reason(key: &CoseKey, kind: KeyKind) -> Verdict {
    if key.kty != RegisteredLabel::Assigned(type_of(kind)) {
        Verdict::Kty
    } else if !has_curve(key, kind) {
        Verdict::Crv
    } else {
        Verdict::Length
    }
}

/// Returns the reason against a key that doesn't fit. Its `alg`, `key_ops` and kid are replaced by
/// some that fit. Then they are put back, one after another.
fn reason(sealed: &Sealed, key: &CoseKey, algorithm: iana::Algorithm, row: Row) -> Verdict {
    let mut other = CoseKey {
        alg: Some(RegisteredLabelWithPrivate::Assigned(algorithm)),
        key_ops: Default::default(),
        key_id: sealed.key_id().to_vec(),
        ..key.clone()
    };
    if fits(&other, sealed).is_none() {
        return kind_reason(key, row.keys);
    }
    other.alg = key.alg.clone();
    if fits(&other, sealed).is_none() {
        return Verdict::Alg;
    }
    other.key_ops = key.key_ops.clone();
    if fits(&other, sealed).is_none() {
        Verdict::KeyOps
    } else {
        Verdict::Kid
    }
}

/// Returns whether the key fits the seal by [`fits`]. Otherwise, returns the reason.
///
/// Whether the only recipient of a `COSE_Mac` is `direct` isn't checked.
pub fn judge(seal: &Seal, key: &CoseKey) -> Verdict {
    let sealed = seal.sealed();
    if fits(key, &sealed).is_some() {
        return Verdict::Fits;
    }
    let algorithm = sealed
        .algorithm()
        .filter(|algorithm| is_for(*algorithm, sealed.form));
    match algorithm.and_then(|algorithm| Some((algorithm, row_for(algorithm)?))) {
        Some((algorithm, row)) => reason(&sealed, key, algorithm, row),
        None => Verdict::Algorithm,
    }
}

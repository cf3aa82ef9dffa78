//! Seals and verdicts as lines of fields.

use crate::encode;
use crate::seals::keys::{Keys, keys_from_slice};
use crate::seals::layers::seals_of;
use crate::seals::seal::{Part, Seal};
use crate::seals::verdict::judge;
use coset::cbor::value::Value;
use coset::iana::{Ec2KeyParameter, EnumI64, KeyType, RsaKeyParameter, SymmetricKeyParameter};
use coset::{Algorithm, CoseKey, Label, RegisteredLabel, RegisteredLabelWithPrivate};
use coset_cwt::Form;

/// Returns a text in quotes, with escapes for all but printable ASCII.
fn quoted(text: &str) -> String {
    format!("\"{}\"", text.as_bytes().escape_ascii())
}

/// Returns bytes in hexadecimal, or `-` if there are none.
fn hex(bytes: &[u8]) -> String {
    if bytes.is_empty() {
        "-".into()
    } else {
        encode::hex(bytes)
    }
}

/// Returns the algorithm of the protected header.
fn algorithm(seal: &Seal) -> String {
    let algorithm: &Option<Algorithm> = &seal.protected.header.alg;
    match algorithm {
        Some(RegisteredLabelWithPrivate::Assigned(assigned)) => assigned.to_i64().to_string(),
        Some(RegisteredLabelWithPrivate::PrivateUse(number)) => number.to_string(),
        Some(RegisteredLabelWithPrivate::Text(name)) => quoted(name),
        None => "-".into(),
    }
}

/// Returns the name of a seal.
fn name(seal: &Seal) -> String {
    let name = match seal.part {
        Part::Signature => "signature".into(),
        Part::Signer(index) => format!("signature {index}"),
        Part::Tag => "tag".into(),
        Part::Ciphertext => "ciphertext".into(),
        Part::Countersignature(index) => format!("countersignature {index} of the message"),
        Part::CountersignatureV2(index) => {
            format!("version 2 countersignature {index} of the message")
        }
        Part::AbbreviatedV2 => "version 2 abbreviated countersignature of the message".into(),
    };
    match seal.layer {
        0 => name,
        layer => format!("layer {layer}: {name}"),
    }
}

/// Returns a key's type.
fn key_type(kty: &RegisteredLabel<KeyType>) -> String {
    match kty {
        RegisteredLabel::Assigned(assigned) => assigned.to_i64().to_string(),
        RegisteredLabel::Text(name) => quoted(name),
    }
}

/// Returns a key's curve: a number or a text.
fn curve(curve: Option<&Value>) -> String {
    let number = curve
        .and_then(Value::as_integer)
        .and_then(|number| i64::try_from(number).ok());
    let text = curve.and_then(|curve| curve.as_text());
    number
        .map(|number| number.to_string())
        .or_else(|| text.map(quoted))
        .unwrap_or("-".into())
}

/// Returns the curve and the public members of a key of a known type, and the member of a symmetric
/// key.
fn members(key: &CoseKey) -> String {
    let get = |label: i64| key.get(&Label::Int(label));
    let bytes = |label: i64, name: &str| {
        let bytes = get(label).and_then(|value| value.as_bytes());
        bytes.map_or(String::new(), |bytes| {
            format!("\t{name}={}", encode::hex(bytes))
        })
    };
    match key.kty {
        RegisteredLabel::Assigned(KeyType::EC2 | KeyType::OKP) => {
            let crv = curve(get(Ec2KeyParameter::Crv.to_i64()));
            let x = bytes(Ec2KeyParameter::X.to_i64(), "x");
            let y = bytes(Ec2KeyParameter::Y.to_i64(), "y");
            // The sign of a compressed point.
            let sign = match get(Ec2KeyParameter::Y.to_i64()).and_then(Value::as_bool) {
                Some(true) => "\ty=sign1",
                Some(false) => "\ty=sign0",
                None => "",
            };
            format!("{crv}{x}{y}{sign}")
        }
        RegisteredLabel::Assigned(KeyType::RSA) => {
            let n = bytes(RsaKeyParameter::N.to_i64(), "n");
            format!("-{n}{}", bytes(RsaKeyParameter::E.to_i64(), "e"))
        }
        RegisteredLabel::Assigned(KeyType::Symmetric) => {
            format!("-{}", bytes(SymmetricKeyParameter::K.to_i64(), "k"))
        }
        _ => "-".into(),
    }
}

/// Returns the line of a key.
fn key_line(seal: &Seal, index: usize, key: &CoseKey) -> String {
    let (kid, verdict) = (hex(&key.key_id), judge(seal, key).name());
    format!(
        "K\t{index}\t{kid}\t{verdict}\t{}\t{}\n",
        key_type(&key.kty),
        members(key)
    )
}

/// Returns the lines of a seal, and of each key that was read.
fn seal_lines(seal: &Seal, keys: &Keys) -> String {
    let (name, algorithm) = (name(seal), algorithm(seal));
    let form = match seal.form {
        Form::Sign1 | Form::Sign => "sign",
        Form::Mac0 | Form::Mac => "mac",
        Form::Encrypt0 | Form::Encrypt => return format!("E\t{name}\t{algorithm}\n"),
    };
    let structure = hex(seal.structure.as_deref().unwrap_or_default());
    let (proof, remarks) = (hex(&seal.proof), seal.remarks().words());
    let read = keys
        .iter()
        .enumerate()
        .filter_map(|(index, key)| Some((index, key.as_ref().ok()?)));
    let keys: String = read
        .map(|(index, key)| key_line(seal, index, key))
        .collect();
    format!("S\t{name}\t{form}\t{algorithm}\t{structure}\t{proof}\t{remarks}\n{keys}")
}

/// Returns the lines about a message and these keys, as the module's page describes them. Returns
/// `None` if the bytes are no message.
///
/// The form is that of [`seals_of`]. `keys` are a `COSE_Key` or a `COSE_KeySet`, or empty.
pub fn described(
    form: Option<Form>,
    bytes: &[u8],
    keys: &[u8],
    external_aad: &[u8],
) -> Option<String> {
    let all = seals_of(form, bytes, external_aad)?;
    let (keys, refused) = match keys_from_slice(keys) {
        Ok(keys) => (keys, String::new()),
        Err(error) => (Keys::new(), format!("X\t-\t{error}\n")),
    };
    let errors = keys
        .iter()
        .enumerate()
        .filter_map(|(index, key)| Some((index, key.as_ref().err()?)));
    let unread: String = errors
        .map(|(index, error)| format!("X\t{index}\t{error}\n"))
        .collect();
    let seals: String = all
        .seals
        .iter()
        .map(|seal| seal_lines(seal, &keys))
        .collect();
    let more = if all.has_more { ".. more\n" } else { "" };
    Some(format!("{refused}{unread}{seals}{more}"))
}

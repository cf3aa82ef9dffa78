//! Registered names, spelled as in IANA's registries.

use coset::iana::{
    AkpKeyParameter, Ec2KeyParameter, EnumI64, HeaderAlgorithmParameter, HeaderParameter,
    HssLmsKeyParameter, KeyParameter, KeyType, Named, OkpKeyParameter, RsaKeyParameter,
    SymmetricKeyParameter, WalnutDsaKeyParameter,
};

/// Returns the name of the number in the registry `T`.
pub(crate) fn registered<T: EnumI64 + Named>(number: i64) -> Option<&'static str> {
    Some(T::from_i64(number)?.name())
}

/// Returns the name of a header's label: of a common parameter, otherwise of one for a recipient's
/// algorithm.
pub(crate) fn header_label(number: i64) -> Option<&'static str> {
    registered::<HeaderParameter>(number).or_else(|| registered::<HeaderAlgorithmParameter>(number))
}

/// Returns the name of a key's label: of any key, otherwise of a key of this type.
pub(crate) fn key_label(kty: Option<i64>, number: i64) -> Option<&'static str> {
    registered::<KeyParameter>(number).or_else(|| of_type(kty?, number))
}

/// Returns the name of a label of a key of this type, from IANA's registry "COSE Key Type
/// Parameters".
fn of_type(kty: i64, number: i64) -> Option<&'static str> {
    match KeyType::from_i64(kty)? {
        KeyType::OKP => registered::<OkpKeyParameter>(number),
        KeyType::EC2 => registered::<Ec2KeyParameter>(number),
        KeyType::RSA => registered::<RsaKeyParameter>(number),
        KeyType::Symmetric => registered::<SymmetricKeyParameter>(number),
        KeyType::HSS_LMS => registered::<HssLmsKeyParameter>(number),
        KeyType::WalnutDSA => registered::<WalnutDsaKeyParameter>(number),
        KeyType::AKP => registered::<AkpKeyParameter>(number),
        KeyType::Reserved => None,
    }
}

//! Rules that a certificate may break though it is read. The lists are written by
//! `tools/make_tables.py`.

use core::fmt;

/// A rule that a certificate may break though it is read; `docs/FINDINGS.md` of the repository says
/// more of each.
#[derive(Clone, Copy, Debug, PartialEq, Eq, Hash, PartialOrd, Ord)]
#[non_exhaustive]
pub enum Rule {
    /// Serial number isn't positive.
    SerialNotPositive = 1,
    /// Serial number has more than 20 octets.
    SerialTooLong = 2,
    /// The algorithm in the signed part isn't the one beside the signature.
    AlgorithmsDiffer = 3,
    /// A salt length of 20 is encoded, though it is the default.
    SaltLengthSpelled = 4,
    /// Issuer is empty.
    IssuerEmpty = 5,
    /// Issuer has a set without attributes.
    IssuerSetEmpty = 6,
    /// Issuer has a set whose attributes aren't in order.
    IssuerSetOrder = 7,
    /// Issuer has a text without characters.
    IssuerTextEmpty = 8,
    /// Issuer has a text that is longer than its attribute may be.
    IssuerTextLong = 9,
    /// `countryName` in issuer isn't a `PrintableString` of two letters.
    IssuerCountry = 10,
    /// Issuer has a string type that isn't for new names.
    IssuerStringType = 11,
    /// `notAfter` is before `notBefore`.
    ValidityReversed = 12,
    /// `notBefore` is a `GeneralizedTime` before 2050.
    NotBeforeForm = 13,
    /// `notAfter` is a `GeneralizedTime` before 2050.
    NotAfterForm = 14,
    /// Subject is empty, and no critical `subjectAltName` names it.
    SubjectEmpty = 15,
    /// Subject of an authority is empty.
    AuthorityUnnamed = 16,
    /// Subject has a set without attributes.
    SubjectSetEmpty = 17,
    /// Subject has a set whose attributes aren't in order.
    SubjectSetOrder = 18,
    /// Subject has a text without characters.
    SubjectTextEmpty = 19,
    /// Subject has a text that is longer than its attribute may be.
    SubjectTextLong = 20,
    /// `countryName` in subject isn't a `PrintableString` of two letters.
    SubjectCountry = 21,
    /// Subject has a string type that isn't for new names.
    SubjectStringType = 22,
    /// Subject has an `emailAddress`, but no `rfc822Name` is among the alternative names.
    SubjectMailboxUnnamed = 23,
    /// RSA modulus isn't positive.
    ModulusNotPositive = 24,
    /// RSA modulus is even.
    ModulusEven = 25,
    /// RSA modulus has fewer than 2048 bits.
    ModulusShort = 26,
    /// RSA exponent is below 3.
    ExponentLow = 27,
    /// RSA exponent is even.
    ExponentEven = 28,
    /// Issuer has a unique identifier.
    IssuerUniqueId = 29,
    /// Subject has a unique identifier.
    SubjectUniqueId = 30,
    /// An extension stands twice.
    ExtensionRepeated = 31,
    /// An extension is critical that RFC 5280 doesn't define.
    CriticalUnknown = 32,
    /// Authority key identifier is critical.
    AuthorityKeyCritical = 33,
    /// No authority key identifier has a `keyIdentifier`, though issuer and subject differ.
    AuthorityKeyMissing = 34,
    /// Authority key identifier has one of `authorityCertIssuer` and `authorityCertSerialNumber`
    /// without the other.
    AuthorityKeyPartial = 35,
    /// Subject key identifier is critical.
    SubjectKeyCritical = 36,
    /// Authority has no subject key identifier.
    SubjectKeyMissing = 37,
    /// Key usage allows nothing.
    KeyUsageEmpty = 38,
    /// Key usage has trailing zero bits.
    KeyUsagePadded = 39,
    /// Key usage isn't critical.
    KeyUsageNotCritical = 40,
    /// Key may sign certificates, but the subject isn't an authority.
    SigningWithoutAuthority = 41,
    /// Subject is an authority, but no key usage lets the key sign certificates.
    AuthorityWithoutSigning = 42,
    /// Policy mappings aren't critical.
    PolicyMappingsNotCritical = 43,
    /// `subjectAltName` has no names.
    SubjectNamesEmpty = 44,
    /// `subjectAltName` is critical, though the subject isn't empty.
    SubjectNamesCritical = 45,
    /// An alternative name is empty.
    AlternativeNameEmpty = 46,
    /// An `iPAddress` has neither four nor sixteen octets.
    AddressLength = 47,
    /// An `rfc822Name` has no @.
    MailboxWithoutAt = 48,
    /// A `dNSName` isn't the name of a host.
    HostName = 49,
    /// A `uniformResourceIdentifier` has no scheme.
    UriWithoutScheme = 50,
    /// `issuerAltName` has no names.
    IssuerNamesEmpty = 51,
    /// `issuerAltName` is critical.
    IssuerNamesCritical = 52,
    /// `subjectDirectoryAttributes` is critical.
    DirectoryAttributesCritical = 53,
    /// Basic constraints of an authority that may sign certificates aren't critical.
    AuthorityNotCritical = 54,
    /// Path length is limited, but the subject isn't an authority.
    PathLengthIdle = 55,
    /// Path length is limited, but no key usage lets the key sign certificates.
    PathLengthWithoutSigning = 56,
    /// `cA` FALSE is encoded, though it is the default.
    AuthorityDefaultSpelled = 57,
    /// Name constraints aren't critical.
    NameConstraintsNotCritical = 58,
    /// Name constraints are there, but the subject isn't an authority.
    NameConstraintsWithoutAuthority = 59,
    /// Policy constraints aren't critical.
    PolicyConstraintsNotCritical = 60,
    /// `extKeyUsage` has no purposes.
    PurposesEmpty = 61,
    /// `extKeyUsage` has `anyExtendedKeyUsage`, and is critical.
    AnyPurposeCritical = 62,
    /// `cRLDistributionPoints` is critical.
    RevocationPointsCritical = 63,
    /// `inhibitAnyPolicy` isn't critical.
    AnyPolicyNotCritical = 64,
    /// `freshestCRL` is critical.
    FreshestListCritical = 65,
    /// `authorityInfoAccess` is critical.
    AuthorityAccessCritical = 66,
    /// `subjectInfoAccess` is critical.
    SubjectAccessCritical = 67,
}

impl Rule {
    /// Every rule, in the order of their numbers.
    pub const ALL: [Rule; 67] = [
        Rule::SerialNotPositive,
        Rule::SerialTooLong,
        Rule::AlgorithmsDiffer,
        Rule::SaltLengthSpelled,
        Rule::IssuerEmpty,
        Rule::IssuerSetEmpty,
        Rule::IssuerSetOrder,
        Rule::IssuerTextEmpty,
        Rule::IssuerTextLong,
        Rule::IssuerCountry,
        Rule::IssuerStringType,
        Rule::ValidityReversed,
        Rule::NotBeforeForm,
        Rule::NotAfterForm,
        Rule::SubjectEmpty,
        Rule::AuthorityUnnamed,
        Rule::SubjectSetEmpty,
        Rule::SubjectSetOrder,
        Rule::SubjectTextEmpty,
        Rule::SubjectTextLong,
        Rule::SubjectCountry,
        Rule::SubjectStringType,
        Rule::SubjectMailboxUnnamed,
        Rule::ModulusNotPositive,
        Rule::ModulusEven,
        Rule::ModulusShort,
        Rule::ExponentLow,
        Rule::ExponentEven,
        Rule::IssuerUniqueId,
        Rule::SubjectUniqueId,
        Rule::ExtensionRepeated,
        Rule::CriticalUnknown,
        Rule::AuthorityKeyCritical,
        Rule::AuthorityKeyMissing,
        Rule::AuthorityKeyPartial,
        Rule::SubjectKeyCritical,
        Rule::SubjectKeyMissing,
        Rule::KeyUsageEmpty,
        Rule::KeyUsagePadded,
        Rule::KeyUsageNotCritical,
        Rule::SigningWithoutAuthority,
        Rule::AuthorityWithoutSigning,
        Rule::PolicyMappingsNotCritical,
        Rule::SubjectNamesEmpty,
        Rule::SubjectNamesCritical,
        Rule::AlternativeNameEmpty,
        Rule::AddressLength,
        Rule::MailboxWithoutAt,
        Rule::HostName,
        Rule::UriWithoutScheme,
        Rule::IssuerNamesEmpty,
        Rule::IssuerNamesCritical,
        Rule::DirectoryAttributesCritical,
        Rule::AuthorityNotCritical,
        Rule::PathLengthIdle,
        Rule::PathLengthWithoutSigning,
        Rule::AuthorityDefaultSpelled,
        Rule::NameConstraintsNotCritical,
        Rule::NameConstraintsWithoutAuthority,
        Rule::PolicyConstraintsNotCritical,
        Rule::PurposesEmpty,
        Rule::AnyPurposeCritical,
        Rule::RevocationPointsCritical,
        Rule::AnyPolicyNotCritical,
        Rule::FreshestListCritical,
        Rule::AuthorityAccessCritical,
        Rule::SubjectAccessCritical,
    ];

    /// The number, from 1 on.
    #[must_use]
    pub const fn number(self) -> usize {
        self as usize
    }

    /// The rule of a number.
    #[must_use]
    pub fn from_number(number: usize) -> Option<Rule> {
        Rule::ALL.get(number.checked_sub(1)?).copied()
    }

    /// The name, as `cimaroly lint` has it: `serial-not-positive`.
    #[must_use]
    pub const fn name(self) -> &'static str {
        match self {
            Rule::SerialNotPositive => "serial-not-positive",
            Rule::SerialTooLong => "serial-too-long",
            Rule::AlgorithmsDiffer => "algorithms-differ",
            Rule::SaltLengthSpelled => "salt-length-spelled",
            Rule::IssuerEmpty => "issuer-empty",
            Rule::IssuerSetEmpty => "issuer-set-empty",
            Rule::IssuerSetOrder => "issuer-set-order",
            Rule::IssuerTextEmpty => "issuer-text-empty",
            Rule::IssuerTextLong => "issuer-text-long",
            Rule::IssuerCountry => "issuer-country",
            Rule::IssuerStringType => "issuer-string-type",
            Rule::ValidityReversed => "validity-reversed",
            Rule::NotBeforeForm => "not-before-form",
            Rule::NotAfterForm => "not-after-form",
            Rule::SubjectEmpty => "subject-empty",
            Rule::AuthorityUnnamed => "authority-unnamed",
            Rule::SubjectSetEmpty => "subject-set-empty",
            Rule::SubjectSetOrder => "subject-set-order",
            Rule::SubjectTextEmpty => "subject-text-empty",
            Rule::SubjectTextLong => "subject-text-long",
            Rule::SubjectCountry => "subject-country",
            Rule::SubjectStringType => "subject-string-type",
            Rule::SubjectMailboxUnnamed => "subject-mailbox-unnamed",
            Rule::ModulusNotPositive => "modulus-not-positive",
            Rule::ModulusEven => "modulus-even",
            Rule::ModulusShort => "modulus-short",
            Rule::ExponentLow => "exponent-low",
            Rule::ExponentEven => "exponent-even",
            Rule::IssuerUniqueId => "issuer-unique-id",
            Rule::SubjectUniqueId => "subject-unique-id",
            Rule::ExtensionRepeated => "extension-repeated",
            Rule::CriticalUnknown => "critical-unknown",
            Rule::AuthorityKeyCritical => "authority-key-critical",
            Rule::AuthorityKeyMissing => "authority-key-missing",
            Rule::AuthorityKeyPartial => "authority-key-partial",
            Rule::SubjectKeyCritical => "subject-key-critical",
            Rule::SubjectKeyMissing => "subject-key-missing",
            Rule::KeyUsageEmpty => "key-usage-empty",
            Rule::KeyUsagePadded => "key-usage-padded",
            Rule::KeyUsageNotCritical => "key-usage-not-critical",
            Rule::SigningWithoutAuthority => "signing-without-authority",
            Rule::AuthorityWithoutSigning => "authority-without-signing",
            Rule::PolicyMappingsNotCritical => "policy-mappings-not-critical",
            Rule::SubjectNamesEmpty => "subject-names-empty",
            Rule::SubjectNamesCritical => "subject-names-critical",
            Rule::AlternativeNameEmpty => "alternative-name-empty",
            Rule::AddressLength => "address-length",
            Rule::MailboxWithoutAt => "mailbox-without-at",
            Rule::HostName => "host-name",
            Rule::UriWithoutScheme => "uri-without-scheme",
            Rule::IssuerNamesEmpty => "issuer-names-empty",
            Rule::IssuerNamesCritical => "issuer-names-critical",
            Rule::DirectoryAttributesCritical => "directory-attributes-critical",
            Rule::AuthorityNotCritical => "authority-not-critical",
            Rule::PathLengthIdle => "path-length-idle",
            Rule::PathLengthWithoutSigning => "path-length-without-signing",
            Rule::AuthorityDefaultSpelled => "authority-default-spelled",
            Rule::NameConstraintsNotCritical => "name-constraints-not-critical",
            Rule::NameConstraintsWithoutAuthority => "name-constraints-without-authority",
            Rule::PolicyConstraintsNotCritical => "policy-constraints-not-critical",
            Rule::PurposesEmpty => "purposes-empty",
            Rule::AnyPurposeCritical => "any-purpose-critical",
            Rule::RevocationPointsCritical => "revocation-points-critical",
            Rule::AnyPolicyNotCritical => "any-policy-not-critical",
            Rule::FreshestListCritical => "freshest-list-critical",
            Rule::AuthorityAccessCritical => "authority-access-critical",
            Rule::SubjectAccessCritical => "subject-access-critical",
        }
    }

    /// What is wrong where it is broken, in plain words.
    #[must_use]
    pub const fn text(self) -> &'static str {
        match self {
            Rule::SerialNotPositive => "serial number isn't positive",
            Rule::SerialTooLong => "serial number has more than 20 octets",
            Rule::AlgorithmsDiffer => {
                "the algorithm in the signed part isn't the one beside the signature"
            }
            Rule::SaltLengthSpelled => "a salt length of 20 is encoded, though it is the default",
            Rule::IssuerEmpty => "issuer is empty",
            Rule::IssuerSetEmpty => "issuer has a set without attributes",
            Rule::IssuerSetOrder => "issuer has a set whose attributes aren't in order",
            Rule::IssuerTextEmpty => "issuer has a text without characters",
            Rule::IssuerTextLong => "issuer has a text that is longer than its attribute may be",
            Rule::IssuerCountry => "countryName in issuer isn't a PrintableString of two letters",
            Rule::IssuerStringType => "issuer has a string type that isn't for new names",
            Rule::ValidityReversed => "notAfter is before notBefore",
            Rule::NotBeforeForm => "notBefore is a GeneralizedTime before 2050",
            Rule::NotAfterForm => "notAfter is a GeneralizedTime before 2050",
            Rule::SubjectEmpty => "subject is empty, and no critical subjectAltName names it",
            Rule::AuthorityUnnamed => "subject of an authority is empty",
            Rule::SubjectSetEmpty => "subject has a set without attributes",
            Rule::SubjectSetOrder => "subject has a set whose attributes aren't in order",
            Rule::SubjectTextEmpty => "subject has a text without characters",
            Rule::SubjectTextLong => "subject has a text that is longer than its attribute may be",
            Rule::SubjectCountry => "countryName in subject isn't a PrintableString of two letters",
            Rule::SubjectStringType => "subject has a string type that isn't for new names",
            Rule::SubjectMailboxUnnamed => {
                "subject has an emailAddress, but no rfc822Name is among the alternative names"
            }
            Rule::ModulusNotPositive => "RSA modulus isn't positive",
            Rule::ModulusEven => "RSA modulus is even",
            Rule::ModulusShort => "RSA modulus has fewer than 2048 bits",
            Rule::ExponentLow => "RSA exponent is below 3",
            Rule::ExponentEven => "RSA exponent is even",
            Rule::IssuerUniqueId => "issuer has a unique identifier",
            Rule::SubjectUniqueId => "subject has a unique identifier",
            Rule::ExtensionRepeated => "an extension stands twice",
            Rule::CriticalUnknown => "an extension is critical that RFC 5280 doesn't define",
            Rule::AuthorityKeyCritical => "authority key identifier is critical",
            Rule::AuthorityKeyMissing => {
                "no authority key identifier has a keyIdentifier, though issuer and subject differ"
            }
            Rule::AuthorityKeyPartial => {
                "authority key identifier has one of authorityCertIssuer and authorityCertSerialNumber without the other"
            }
            Rule::SubjectKeyCritical => "subject key identifier is critical",
            Rule::SubjectKeyMissing => "authority has no subject key identifier",
            Rule::KeyUsageEmpty => "key usage allows nothing",
            Rule::KeyUsagePadded => "key usage has trailing zero bits",
            Rule::KeyUsageNotCritical => "key usage isn't critical",
            Rule::SigningWithoutAuthority => {
                "key may sign certificates, but the subject isn't an authority"
            }
            Rule::AuthorityWithoutSigning => {
                "subject is an authority, but no key usage lets the key sign certificates"
            }
            Rule::PolicyMappingsNotCritical => "policy mappings aren't critical",
            Rule::SubjectNamesEmpty => "subjectAltName has no names",
            Rule::SubjectNamesCritical => {
                "subjectAltName is critical, though the subject isn't empty"
            }
            Rule::AlternativeNameEmpty => "an alternative name is empty",
            Rule::AddressLength => "an iPAddress has neither four nor sixteen octets",
            Rule::MailboxWithoutAt => "an rfc822Name has no @",
            Rule::HostName => "a dNSName isn't the name of a host",
            Rule::UriWithoutScheme => "a uniformResourceIdentifier has no scheme",
            Rule::IssuerNamesEmpty => "issuerAltName has no names",
            Rule::IssuerNamesCritical => "issuerAltName is critical",
            Rule::DirectoryAttributesCritical => "subjectDirectoryAttributes is critical",
            Rule::AuthorityNotCritical => {
                "basic constraints of an authority that may sign certificates aren't critical"
            }
            Rule::PathLengthIdle => "path length is limited, but the subject isn't an authority",
            Rule::PathLengthWithoutSigning => {
                "path length is limited, but no key usage lets the key sign certificates"
            }
            Rule::AuthorityDefaultSpelled => "cA FALSE is encoded, though it is the default",
            Rule::NameConstraintsNotCritical => "name constraints aren't critical",
            Rule::NameConstraintsWithoutAuthority => {
                "name constraints are there, but the subject isn't an authority"
            }
            Rule::PolicyConstraintsNotCritical => "policy constraints aren't critical",
            Rule::PurposesEmpty => "extKeyUsage has no purposes",
            Rule::AnyPurposeCritical => "extKeyUsage has anyExtendedKeyUsage, and is critical",
            Rule::RevocationPointsCritical => "cRLDistributionPoints is critical",
            Rule::AnyPolicyNotCritical => "inhibitAnyPolicy isn't critical",
            Rule::FreshestListCritical => "freshestCRL is critical",
            Rule::AuthorityAccessCritical => "authorityInfoAccess is critical",
            Rule::SubjectAccessCritical => "subjectInfoAccess is critical",
        }
    }

    /// The clause that it is from: `RFC 5280, 4.1.2.2`.
    #[allow(clippy::match_same_arms)] // (they stand in the order of the rules)
    #[must_use]
    pub const fn clause(self) -> &'static str {
        match self {
            Rule::SerialNotPositive => "RFC 5280, 4.1.2.2",
            Rule::SerialTooLong => "RFC 5280, 4.1.2.2",
            Rule::AlgorithmsDiffer => "RFC 5280, 4.1.1.2",
            Rule::SaltLengthSpelled => "X.690, 11.5",
            Rule::IssuerEmpty => "RFC 5280, 4.1.2.4",
            Rule::IssuerSetEmpty => "RFC 5280, 4.1.2.4",
            Rule::IssuerSetOrder => "X.690, 11.6",
            Rule::IssuerTextEmpty => "RFC 5280, A.1",
            Rule::IssuerTextLong => "RFC 5280, A.1",
            Rule::IssuerCountry => "RFC 5280, A.1",
            Rule::IssuerStringType => "RFC 5280, 4.1.2.4",
            Rule::ValidityReversed => "RFC 5280, 4.1.2.5",
            Rule::NotBeforeForm => "RFC 5280, 4.1.2.5",
            Rule::NotAfterForm => "RFC 5280, 4.1.2.5",
            Rule::SubjectEmpty => "RFC 5280, 4.1.2.6",
            Rule::AuthorityUnnamed => "RFC 5280, 4.1.2.6",
            Rule::SubjectSetEmpty => "RFC 5280, 4.1.2.4",
            Rule::SubjectSetOrder => "X.690, 11.6",
            Rule::SubjectTextEmpty => "RFC 5280, A.1",
            Rule::SubjectTextLong => "RFC 5280, A.1",
            Rule::SubjectCountry => "RFC 5280, A.1",
            Rule::SubjectStringType => "RFC 5280, 4.1.2.4",
            Rule::SubjectMailboxUnnamed => "RFC 5280, 4.1.2.6",
            Rule::ModulusNotPositive => "RFC 8017, 3.1",
            Rule::ModulusEven => "RFC 8017, 3.1",
            Rule::ModulusShort => "NIST SP 800-131A, 3",
            Rule::ExponentLow => "RFC 8017, 3.1",
            Rule::ExponentEven => "RFC 8017, 3.1",
            Rule::IssuerUniqueId => "RFC 5280, 4.1.2.8",
            Rule::SubjectUniqueId => "RFC 5280, 4.1.2.8",
            Rule::ExtensionRepeated => "RFC 5280, 4.2",
            Rule::CriticalUnknown => "RFC 5280, 4.2",
            Rule::AuthorityKeyCritical => "RFC 5280, 4.2.1.1",
            Rule::AuthorityKeyMissing => "RFC 5280, 4.2.1.1",
            Rule::AuthorityKeyPartial => "RFC 5280, A.2",
            Rule::SubjectKeyCritical => "RFC 5280, 4.2.1.2",
            Rule::SubjectKeyMissing => "RFC 5280, 4.2.1.2",
            Rule::KeyUsageEmpty => "RFC 5280, 4.2.1.3",
            Rule::KeyUsagePadded => "X.690, 11.2.2",
            Rule::KeyUsageNotCritical => "RFC 5280, 4.2.1.3",
            Rule::SigningWithoutAuthority => "RFC 5280, 4.2.1.9",
            Rule::AuthorityWithoutSigning => "RFC 5280, 4.2.1.3",
            Rule::PolicyMappingsNotCritical => "RFC 5280, 4.2.1.5",
            Rule::SubjectNamesEmpty => "RFC 5280, 4.2.1.6",
            Rule::SubjectNamesCritical => "RFC 5280, 4.2.1.6",
            Rule::AlternativeNameEmpty => "RFC 5280, 4.2.1.6",
            Rule::AddressLength => "RFC 5280, 4.2.1.6",
            Rule::MailboxWithoutAt => "RFC 5280, 4.2.1.6",
            Rule::HostName => "RFC 5280, 4.2.1.6",
            Rule::UriWithoutScheme => "RFC 5280, 4.2.1.6",
            Rule::IssuerNamesEmpty => "RFC 5280, 4.2.1.7",
            Rule::IssuerNamesCritical => "RFC 5280, 4.2.1.7",
            Rule::DirectoryAttributesCritical => "RFC 5280, 4.2.1.8",
            Rule::AuthorityNotCritical => "RFC 5280, 4.2.1.9",
            Rule::PathLengthIdle => "RFC 5280, 4.2.1.9",
            Rule::PathLengthWithoutSigning => "RFC 5280, 4.2.1.9",
            Rule::AuthorityDefaultSpelled => "X.690, 11.5",
            Rule::NameConstraintsNotCritical => "RFC 5280, 4.2.1.10",
            Rule::NameConstraintsWithoutAuthority => "RFC 5280, 4.2.1.10",
            Rule::PolicyConstraintsNotCritical => "RFC 5280, 4.2.1.11",
            Rule::PurposesEmpty => "RFC 5280, 4.2.1.12",
            Rule::AnyPurposeCritical => "RFC 5280, 4.2.1.12",
            Rule::RevocationPointsCritical => "RFC 5280, 4.2.1.13",
            Rule::AnyPolicyNotCritical => "RFC 5280, 4.2.1.14",
            Rule::FreshestListCritical => "RFC 5280, 4.2.1.15",
            Rule::AuthorityAccessCritical => "RFC 5280, 4.2.2.1",
            Rule::SubjectAccessCritical => "RFC 5280, 4.2.2.2",
        }
    }

    /// Whether what it finds is allowed, or was, and mostly a mistake; else the clause forbids it.
    #[must_use]
    pub const fn is_warning(self) -> bool {
        matches!(
            self,
            Rule::IssuerStringType
                | Rule::SubjectStringType
                | Rule::ModulusShort
                | Rule::CriticalUnknown
                | Rule::KeyUsageNotCritical
                | Rule::AuthorityWithoutSigning
                | Rule::PolicyMappingsNotCritical
                | Rule::SubjectNamesCritical
                | Rule::IssuerNamesCritical
                | Rule::AnyPurposeCritical
                | Rule::RevocationPointsCritical
        )
    }
}

impl fmt::Display for Rule {
    fn fmt(&self, f: &mut fmt::Formatter<'_>) -> fmt::Result {
        f.write_str(self.text())
    }
}

/// A rule that a certificate breaks, and the bytes of the field that it is about: `start` up to
/// `end`. Of a field that isn't there, these are what is signed.
#[derive(Clone, Copy, Debug, Default, PartialEq, Eq)]
#[repr(C)]
pub struct Finding {
    rule: u32,
    /// The first byte.
    pub start: usize,
    /// The byte behind the last.
    pub end: usize,
}

impl Finding {
    /// A finding for a buffer that [`crate::Reader::findings`] fills.
    pub const EMPTY: Finding = Finding { rule: 0, start: 0, end: 0 };

    /// Which rule it is, or none of a finding that wasn't filled.
    #[must_use]
    pub fn rule(&self) -> Option<Rule> {
        Rule::from_number(self.rule as usize)
    }
}

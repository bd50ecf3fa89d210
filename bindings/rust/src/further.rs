//! Checks of extensions that a check of a certificate takes as octets.

use crate::error::{Reason, Refused};
use crate::library::{self, keys, status};
use crate::oid::Oid;
use crate::told::Verdict;

/// Checks the value of an extension that [`crate::Reader::check`] takes as octets, as of
/// `authorityInfoAccess`, `cRLDistributionPoints` or `certificatePolicies`: whether it encodes what the
/// extension's type says, and how it deviates from the DER encoding of that. `None` where no such
/// extension has the type. Of the list of certificate timestamps (RFC 6962, 3.3) the OCTET STRING is
/// checked, and not what TLS has in it. It takes no memory.
///
/// ```
/// # fn main() -> Result<(), cimaroly::Refused> {
/// use cimaroly::{check_extension, Oid};
///
/// // a policy, 2.23.140.1.2.1
/// let value = b"\x30\x0a\x30\x08\x06\x06\x67\x81\x0c\x01\x02\x01";
/// let verdict = check_extension(Oid::CERTIFICATE_POLICIES, value).transpose()?;
/// assert!(verdict.is_some_and(|it| it.is_der()));
///
/// // a check of the certificate reads this one
/// assert!(check_extension(Oid::KEY_USAGE, value).is_none());
/// # Ok(())
/// # }
/// ```
///
/// # Errors
/// A [`Refused`] where the value doesn't encode what the type says; its `field` is `None`.
#[must_use]
pub fn check_extension(oid: Oid<'_>, value: &[u8]) -> Option<Result<Verdict, Refused>> {
    let mut told = library::Verdict::default();
    if keys::check_extension(oid.content(), value, &mut told) == status::OK {
        return Some(Ok(Verdict { counts: told.counts, headers: told.headers }));
    }
    // (only of a type that isn't known is there no reason)
    let reason = Reason::from_number(told.error)?;
    Some(Err(Refused { reason, at: told.at, field: None }))
}

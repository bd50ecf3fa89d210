#ifndef CIMAROLY_TESTS_FIELDS_H
#define CIMAROLY_TESTS_FIELDS_H

#include "cimaroly.h"

/* The names of fields, in the order of the structures. */
enum { CERTIFICATE_NAMES, REQUEST_NAMES, PRIVATE_KEY_NAMES, CRL_NAMES };
static const char *const field_names[][14] = {
    {"tbs_certificate", "version", "serial_number", "signature", "issuer", "validity", "subject",
     "subject_public_key_info", "issuer_unique_id", "subject_unique_id", "extensions", "signature_algorithm",
     "signature_value", NULL},
    {"certification_request_info", "version", "subject", "subject_public_key_info", "attributes",
     "signature_algorithm", "signature", NULL},
    {"version", "private_key_algorithm", "private_key", "skipped", "public_key", NULL},
    {"tbs_cert_list", "version", "signature", "issuer", "this_update", "next_update", "revoked_certificates",
     "crl_extensions", "signature_algorithm", "signature_value", NULL},
};

/* Those of a kind, which are those of its outline. */
static inline const char *const *names_of(uint32_t kind)
{
    switch (kind) {
    case CIMAROLY_CERTIFICATE:
    case CIMAROLY_CERTIFICATE_OUTLINE:
        return field_names[CERTIFICATE_NAMES];
    case CIMAROLY_REQUEST:
    case CIMAROLY_REQUEST_OUTLINE:
        return field_names[REQUEST_NAMES];
    case CIMAROLY_CRL:
        return field_names[CRL_NAMES];
    default:
        return field_names[PRIVATE_KEY_NAMES];
    }
}

#endif

/* The messages that are signed with --only-ours: CRLs and OCSP answers of one CA, exactly as the desk writes them, in DER (X.690 10, 11).
 * examples/only_ours.py accepts and refuses the same messages; tests/groups/native_signer.py compares the two. */
#include <stdio.h>
#include <string.h>

#include <openssl/sha.h>

#include "signer.h"

enum { INTEGER = 0x02, OCTETS = 0x04, IDENTIFIER = 0x06, SEQUENCE = 0x30, REVOKED = 0xA1 };
/* A UTCTime and a GeneralizedTime in seconds and UTC, and the extensions of an entry with a reasonCode, with their tags and lengths. */
enum { UTC_LENGTH = 15, GENERAL_LENGTH = 17, REASON_LENGTH = 14 };
/* The most octets of a serial number (RFC 5280 4.1.2.2), and of a key identifier that the desk has. */
enum { LONGEST_SERIAL = 20, LONGEST_IDENTIFIER = 64 };

#define TEXT(text) {(const unsigned char *)(text), sizeof(text) - 1}
#define LITERAL(text) ((struct octets)TEXT(text))

/* The AlgorithmIdentifier of a key, and that of the desk's signatures by it: RFC 5480 2.1.1 and RFC 5758 3.2 (P-256, P-384), RFC 4055 1.2
 * and 5 (RSA), RFC 8410 3 (Ed25519). */
static const struct octets algorithms[4][2] = {
    {TEXT("\x30\x13\x06\x07\x2A\x86\x48\xCE\x3D\x02\x01\x06\x08\x2A\x86\x48\xCE\x3D\x03\x01\x07"),
     TEXT("\x30\x0A\x06\x08\x2A\x86\x48\xCE\x3D\x04\x03\x02")},
    {TEXT("\x30\x10\x06\x07\x2A\x86\x48\xCE\x3D\x02\x01\x06\x05\x2B\x81\x04\x00\x22"), TEXT("\x30\x0A\x06\x08\x2A\x86\x48\xCE\x3D\x04\x03\x03")},
    {TEXT("\x30\x0D\x06\x09\x2A\x86\x48\x86\xF7\x0D\x01\x01\x01\x05\x00"), TEXT("\x30\x0D\x06\x09\x2A\x86\x48\x86\xF7\x0D\x01\x01\x0B\x05\x00")},
    {TEXT("\x30\x05\x06\x03\x2B\x65\x70"), TEXT("\x30\x05\x06\x03\x2B\x65\x70")},
};

/* id-sha1 and id-sha256, with their parameters absent or NULL (RFC 3370 2.1, RFC 5754 2.2). */
static const struct {
    const char *digest;
    struct octets identifier;
} hashes[4] = {
    {"SHA1", TEXT("\x30\x07\x06\x05\x2B\x0E\x03\x02\x1A")},
    {"SHA1", TEXT("\x30\x09\x06\x05\x2B\x0E\x03\x02\x1A\x05\x00")},
    {"SHA256", TEXT("\x30\x0B\x06\x09\x60\x86\x48\x01\x65\x03\x04\x02\x01")},
    {"SHA256", TEXT("\x30\x0D\x06\x09\x60\x86\x48\x01\x65\x03\x04\x02\x01\x05\x00")},
};

/* Octets that are read value by value. A function that reads from them and returns false has written the reason, except read_long_length. */
struct reader {
    const unsigned char *at, *end, *begin;
    char *why;
};

static bool refuse(const struct reader *reader, const char *what) {
    (void)snprintf(reader->why, REASON, "no %s at octet %td", what, reader->at - reader->begin);
    return false;
}

static size_t left(const struct reader *reader) {
    return (size_t)(reader->end - reader->at);
}

static bool next_is(const struct reader *reader, unsigned tag) {
    return left(reader) > 0 && *reader->at == tag;
}

static bool begins(const struct reader *reader, struct octets wanted) {
    return left(reader) >= wanted.length && memcmp(reader->at, wanted.begin, wanted.length) == 0;
}

/* Reads the rest of a length in the long form. False unless it has the fewest octets (X.690 10.1). */
static bool read_long_length(struct reader *reader, size_t *length) {
    size_t count = *length - 128, value = 0;
    if (count == 0 || count > sizeof value || count > left(reader) || *reader->at == 0)
        return false;
    while (count-- > 0)
        value = value << 8 | *reader->at++;
    *length = value;
    return value > 127;
}

/* Reads the next value, which must have this tag; `contents` gets its contents. */
static bool inside(struct reader *reader, unsigned tag, struct reader *contents) {
    struct reader rest = *reader;
    size_t length;
    if (left(reader) < 2 || *reader->at != tag)
        return refuse(reader, "value with the right tag");
    length = reader->at[1];
    rest.at += 2;
    if (length > 127 && !read_long_length(&rest, &length))
        return refuse(reader, "length in DER");
    if (length > left(&rest))
        return refuse(reader, "value that ends within what holds it");
    reader->at = rest.end = rest.at + length;
    *contents = rest;
    return true;
}

static bool skip(struct reader *reader, unsigned tag) {
    struct reader contents;
    return inside(reader, tag, &contents);
}

/* Skips a value with any tag of one octet. */
static bool skip_any(struct reader *reader) {
    if (left(reader) == 0 || (*reader->at & 31) == 31)
        return refuse(reader, "value");
    return skip(reader, *reader->at);
}

static bool same(struct reader *reader, struct octets wanted, const char *what) {
    if (!begins(reader, wanted))
        return refuse(reader, what);
    reader->at += wanted.length;
    return true;
}

static struct octets octets_of(const struct short_octets *value) {
    return (struct octets){value->octets, value->length};
}

static bool ended(const struct reader *reader) {
    return left(reader) == 0 || refuse(reader, "end");
}

/* Reads an INTEGER, which must have the fewest octets, and one at least (X.690 8.3); `value` gets its contents. */
static bool read_integer(struct reader *reader, struct reader *value) {
    if (!inside(reader, INTEGER, value))
        return false;
    const unsigned char *at = value->at;
    if (left(value) == 0 || (left(value) > 1 && ((at[0] == 0 && at[1] < 0x80) || (at[0] == 0xFF && at[1] >= 0x80))))
        return refuse(value, "number in DER");
    return true;
}

/* Moments and reasons */

/* Two digits, from `least` to `most`. */
static bool digits(const unsigned char *at, int least, int most) {
    int value = (at[0] - '0') * 10 + at[1] - '0';
    return at[0] >= '0' && at[0] <= '9' && at[1] >= '0' && at[1] <= '9' && least <= value && value <= most;
}

/* MMDDHHMMSSZ (RFC 5280 4.1.2.5). */
static bool is_moment_of_year(const unsigned char *at) {
    return digits(at, 1, 12) && digits(at + 2, 1, 31) && digits(at + 4, 0, 23) && digits(at + 6, 0, 59) && digits(at + 8, 0, 59) && at[10] == 'Z';
}

/* The length of the moment (a UTCTime or a GeneralizedTime) at the beginning of the octets; 0 if there is none. */
static size_t length_of_moment(const unsigned char *at, size_t length) {
    if (length >= UTC_LENGTH && at[0] == 0x17 && at[1] == UTC_LENGTH - 2 && digits(at + 2, 0, 99) && is_moment_of_year(at + 4))
        return UTC_LENGTH;
    if (length >= GENERAL_LENGTH && at[0] == 0x18 && at[1] == GENERAL_LENGTH - 2 && digits(at + 2, 0, 99) && digits(at + 4, 0, 99) &&
        is_moment_of_year(at + 6))
        return GENERAL_LENGTH;
    return 0;
}

static bool read_moment(struct reader *reader, const char *what) {
    size_t length = length_of_moment(reader->at, left(reader));
    reader->at += length;
    return length > 0 || refuse(reader, what);
}

static bool read_general(struct reader *reader, const char *what) {
    return next_is(reader, 0x18) ? read_moment(reader, what) : refuse(reader, what);
}

/* A CRLReason of RFC 5280 5.3.1: 7 is unused, and 0 is left out. */
static bool is_reason(const unsigned char *at) {
    return at[0] == 0x0A && at[1] == 1 && at[2] >= 1 && at[2] <= 10 && at[2] != 7;
}

/* A CRL (RFC 5280 5.1.2) */

/* The length of an INTEGER above 0, of at most 20 octets and in the fewest, at the beginning of the octets (18 at least); 0 if there is none. */
static size_t length_of_serial(const unsigned char *at) {
    if (at[0] != INTEGER || at[1] == 0 || at[1] > LONGEST_SERIAL || at[2] > 0x7F || (at[2] == 0 && (at[1] == 1 || at[3] < 0x80)))
        return 0;
    return 2 + (size_t)at[1];
}

/* Whether the contents of an entry are a serial number, its moment, and its reason if it has one. */
static bool is_entry(const unsigned char *at, size_t length) {
    if (length < 3 + UTC_LENGTH)
        return false;
    size_t serial = length_of_serial(at);
    if (serial == 0 || serial > length)
        return false;
    size_t moment = length_of_moment(at + serial, length - serial), reason = length - serial - moment;
    at += serial + moment;
    return moment > 0 &&
           (reason == 0 || (reason == REASON_LENGTH && memcmp(at, "\x30\x0C\x30\x0A\x06\x03\x55\x1D\x15\x04\x03", 11) == 0 && is_reason(at + 11)));
}

static bool read_entry(struct reader *listed) {
    const unsigned char *at = listed->at;
    if (left(listed) < 2 || at[0] != SEQUENCE || at[1] > 127 || at[1] > left(listed) - 2 || !is_entry(at + 2, at[1]))
        return refuse(listed, "entry");
    listed->at += 2 + (size_t)at[1];
    return true;
}

static bool read_entries(struct reader *reader) {
    struct reader listed;
    if (!next_is(reader, SEQUENCE))
        return true;
    if (!inside(reader, SEQUENCE, &listed))
        return false;
    do {
        if (!read_entry(&listed))
            return false;
    } while (left(&listed) > 0);
    return true;
}

static bool read_crl_number(struct reader *extension) {
    struct reader value, number;
    if (!same(extension, LITERAL("\x06\x03\x55\x1D\x14"), "CRL number") || !inside(extension, OCTETS, &value) || !ended(extension) ||
        !read_integer(&value, &number))
        return false;
    if (*number.at > 0x7F || (*number.at == 0 && left(&number) == 1))
        return refuse(&number, "number of 1 at least");
    return ended(&value);
}

static bool read_crl_extensions(struct reader *tagged, const struct issuer *issuer) {
    struct reader extensions, extension;
    if (!inside(tagged, SEQUENCE, &extensions) || !ended(tagged))
        return false;
    const struct short_octets *own = &issuer->key_identifiers[1];
    bool is_own = own->length > 0 && begins(&extensions, octets_of(own));
    return same(&extensions, octets_of(is_own ? own : &issuer->key_identifiers[0]), "key identifier of the issuer") &&
           inside(&extensions, SEQUENCE, &extension) && ended(&extensions) && read_crl_number(&extension);
}

static bool read_crl(struct reader *reader, const struct issuer *issuer) {
    struct reader tagged;
    return same(reader, LITERAL("\x02\x01\x01"), "version 2") && same(reader, issuer->algorithm, "algorithm of the issuer's key") &&
           same(reader, issuer->name, "name of the issuer") && read_moment(reader, "thisUpdate") && read_moment(reader, "nextUpdate") &&
           read_entries(reader) && inside(reader, 0xA0, &tagged) && ended(reader) && read_crl_extensions(&tagged, issuer);
}

/* An OCSP answer (RFC 6960 4.2.1) */

/* A CertID (RFC 6960 4.1.1), repeated from the request: the hash algorithm, two hashes and a serial number. */
static bool read_cert_id(struct reader *reader) {
    struct reader algorithm, value;
    if (!inside(reader, SEQUENCE, &algorithm) || !inside(&algorithm, IDENTIFIER, &value))
        return false;
    if (left(&value) == 0)
        return refuse(&value, "identifier");
    return (left(&algorithm) == 0 || skip_any(&algorithm)) && ended(&algorithm) && skip(reader, OCTETS) && skip(reader, OCTETS) &&
           read_integer(reader, &value) && ended(reader);
}

static bool is_of_issuer(const struct reader *cert_id, const struct issuer *issuer) {
    for (size_t i = 0; i < 4; i++)
        if (begins(cert_id, octets_of(&issuer->cert_ids[i])))
            return true;
    return false;
}

/* The moment of a revocation, and its reason if it has one. */
static bool read_revoked(struct reader *single) {
    struct reader revoked;
    if (!inside(single, REVOKED, &revoked) || !read_general(&revoked, "moment of a revocation"))
        return false;
    if (left(&revoked) == 0)
        return true;
    if (left(&revoked) != 5 || memcmp(revoked.at, "\xA0\x03", 2) != 0 || !is_reason(revoked.at + 2))
        return refuse(&revoked, "reason");
    return true;
}

static bool read_status(struct reader *single, bool is_issuers) {
    if (next_is(single, 0x82))
        return same(single, LITERAL("\x82\x00"), "status");
    if (!is_issuers)
        return refuse(single, "status `unknown` of another issuer's certificate");
    return next_is(single, REVOKED) ? read_revoked(single) : same(single, LITERAL("\x80\x00"), "status");
}

static bool read_single(struct reader *answers, const struct issuer *issuer) {
    struct reader single, cert_id;
    if (!inside(answers, SEQUENCE, &single) || !inside(&single, SEQUENCE, &cert_id))
        return false;
    bool is_issuers = is_of_issuer(&cert_id, issuer);
    return read_cert_id(&cert_id) && read_status(&single, is_issuers) && read_general(&single, "thisUpdate") &&
           same(&single, LITERAL("\xA0\x11"), "nextUpdate") && read_general(&single, "nextUpdate") && ended(&single);
}

/* responseExtensions, with the nonce alone (RFC 6960 4.4.1). */
static bool read_nonce(struct reader *reader) {
    struct reader tagged, extensions, extension;
    return inside(reader, 0xA1, &tagged) && inside(&tagged, SEQUENCE, &extensions) && ended(&tagged) && inside(&extensions, SEQUENCE, &extension) &&
           ended(&extensions) && same(&extension, LITERAL("\x06\x09\x2B\x06\x01\x05\x05\x07\x30\x01\x02"), "nonce") && skip(&extension, OCTETS) &&
           ended(&extension);
}

static bool read_answer(struct reader *reader, const struct issuer *issuer, const struct issuer *responder) {
    struct reader answers;
    if (!same(reader, LITERAL("\xA2\x16\x04\x14"), "responder by the hash of its key") ||
        !same(reader, (struct octets){responder->key_hash, SHA_DIGEST_LENGTH}, "hash of the responder's key") || !read_general(reader, "producedAt") ||
        !inside(reader, SEQUENCE, &answers))
        return false;
    do {
        if (!read_single(&answers, issuer))
            return false;
    } while (left(&answers) > 0);
    return (left(reader) == 0 || read_nonce(reader)) && ended(reader);
}

bool is_ours(struct octets message, const struct issuer *issuer, const struct issuer *responder, char *why) {
    struct reader outer = {message.begin, message.begin + message.length, message.begin, why}, contents;
    if (!inside(&outer, SEQUENCE, &contents) || !ended(&outer))
        return false;
    /* A TBSCertList begins with its version. A TBSCertificate of version 1 may begin likewise, but its validity is no moment. */
    if (!next_is(&contents, INTEGER))
        return read_answer(&contents, issuer, responder ? responder : issuer);
    return responder ? refuse(&contents, "OCSP answer of the responder, which signs no CRL,") : read_crl(&contents, issuer);
}

/* The issuer, by its certificate */

static void append(struct short_octets *to, const void *octets, size_t length) {
    memcpy(to->octets + to->length, octets, length);
    to->length += length;
}

/* Makes an authorityKeyIdentifier extension with this key identifier (RFC 5280 4.2.1.1), or leaves it empty if the desk has none of this length. */
static void name_key(struct short_octets *extension, const unsigned char *identifier, size_t length) {
    unsigned char n = (unsigned char)length;
    if (length == 0 || length > LONGEST_IDENTIFIER)
        return;
    append(extension, (unsigned char[]){SEQUENCE, n + 11, IDENTIFIER, 3, 0x55, 0x1D, 0x23, OCTETS, n + 4, SEQUENCE, n + 2, 0x80, n}, 13);
    append(extension, identifier, length);
}

/* Appends an OCTET STRING with the hash of some octets. */
static bool append_hash(struct short_octets *to, const char *digest, struct octets hashed) {
    unsigned char *head = to->octets + to->length;
    size_t length = 0;
    if (EVP_Q_digest(NULL, digest, NULL, hashed.begin, hashed.length, head + 2, &length) != 1)
        return false;
    head[0] = OCTETS;
    head[1] = (unsigned char)length;
    to->length += 2 + length;
    return true;
}

/* The AlgorithmIdentifier of the desk's signatures with a key of this algorithm; empty if the desk has none. */
static struct octets signature_algorithm(const X509_ALGOR *algorithm) {
    unsigned char *der = NULL;
    int length = i2d_X509_ALGOR(algorithm, &der);
    struct octets found = {NULL, 0};
    for (size_t i = 0; i < 4; i++)
        if (length > 0 && (size_t)length == algorithms[i][0].length && memcmp(der, algorithms[i][0].begin, (size_t)length) == 0)
            found = algorithms[i][1];
    OPENSSL_free(der);
    return found;
}

bool make_issuer(struct issuer *issuer, X509 *certificate, char *why) {
    /* X509_get0_subject_key_id(3) would return none if another extension can't be read. */
    ASN1_OCTET_STRING *own = X509_get_ext_d2i(certificate, NID_subject_key_identifier, NULL, NULL);
    const ASN1_BIT_STRING *bits = X509_get0_pubkey_bitstr(certificate);
    X509_ALGOR *algorithm = NULL;
    *issuer = (struct issuer){.certificate = certificate};
    if (own != NULL)
        name_key(&issuer->key_identifiers[1], own->data, (size_t)own->length);
    ASN1_OCTET_STRING_free(own);
    bool is_read = bits && X509_NAME_get0_der(X509_get_subject_name(certificate), &issuer->name.begin, &issuer->name.length) &&
                   X509_PUBKEY_get0_param(NULL, NULL, NULL, &algorithm, X509_get_X509_PUBKEY(certificate));
    for (size_t i = 0; is_read && i < 4; i++) {
        append(&issuer->cert_ids[i], hashes[i].identifier.begin, hashes[i].identifier.length);
        is_read = append_hash(&issuer->cert_ids[i], hashes[i].digest, issuer->name) &&
                  append_hash(&issuer->cert_ids[i], hashes[i].digest, (struct octets){bits->data, (size_t)bits->length});
    }
    if (is_read)
        issuer->algorithm = signature_algorithm(algorithm);
    if (issuer->algorithm.begin == NULL) {
        (void)snprintf(why, REASON, "its key is none of P-256, P-384, RSA and Ed25519");
        return false;
    }
    issuer->key_hash = issuer->cert_ids[0].octets + issuer->cert_ids[0].length - SHA_DIGEST_LENGTH;
    name_key(&issuer->key_identifiers[0], issuer->key_hash, SHA_DIGEST_LENGTH);
    return true;
}

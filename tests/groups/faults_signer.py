"""The signer fails at its Nth call. The program replies `F3 signer`, or internalError to an OCSP request, records nothing, and runs the next line."""

import re

from lib import program
from lib.faults import LIFE
from lib.program import ANY_SIGNATURE
from lib.trial import each

# The index in LIFE of each line that needs a signature: three CRLs, and an OCSP response after the first.
CALLS = [5, 6, 7, 8]
INTERNAL_ERROR = "ocsp 30030a0102"


def replies_where(failing):
    """The replies if the call with this number fails. An unsigned CRL is not issued, and later CRLs are as if it had not been requested."""
    wanted = [reply for _, reply in LIFE]
    if failing == 2:
        wanted[6] = INTERNAL_ERROR
    elif failing is not None:
        crls = [at for at in (5, 7, 8) if at != CALLS[failing - 1]]
        # The first CRL after the certificate's notAfter is the last one that lists it.
        entries = [1 if at in (5, min(it for it in crls if it > 5)) else 0 for at in crls]
        for number, (at, count) in enumerate(zip(crls, entries), 1):
            wanted[at] = f"crl {number} entries {count}"
        wanted[CALLS[failing - 1]] = "F3 signer"
    return wanted


@each({"its first call": 1, "its second call": 2, "its third call": 3, "its fourth call": 4, "no call": None}, seconds=1)
def the_signer_fails_at(t, failing):
    t.register(key=program.P256_KEY)
    t.signer(answer=lambda message, call: None if call == failing else ANY_SIGNATURE)
    lines = [asked for asked, _ in LIFE]
    # The OCSP request names another issuer key than the register's. Its response is `unknown`, and is signed too.
    ran = t.desk("script", "ca.db", "--signer", "ca.sign", "--algorithm", "ecdsa-sha256", given="".join(f"{it}\n" for it in lines))
    wanted, got = replies_where(failing), ran.lines
    t.same(ran.status, 0, "status")
    is_answered = re.match("ocsp 3081..0a0100", got[6]) is not None
    t.true(got[6] == INTERNAL_ERROR if failing == 2 else is_answered, f"the OCSP answer: {got[6]}")
    del wanted[6], got[6]
    t.same(got, wanted, "replies")
    signed = 3 if failing in (None, 2) else 2
    t.same(t.sql("ca.db", "SELECT count(*), max(number) FROM crl"), [(signed, signed)], "count and highest number of the CRLs")
    t.same(t.done("audit", "ca.db"), f"sound, 1 certificates, 1 revoked, {signed} CRLs\n")

"""What `rim-verify` is made of: it verifies a CCA attestation token, and looks up which launch of kept reports has its RIM.

token      from a token's bytes to the claims of its realm
keys       public keys and signatures, by the package `cryptography`
chain      from the attestation key down to the realm's claims
expected   values of a platform that are expected
main       words, reports, what is printed
"""

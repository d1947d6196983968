"""What `rim-endorse` is made of: reference values of kept reports, as verifiers of CCA take them.

comid      the launches as a CoMID, as JSON and in CBOR, and the CoRIM around it
main       words, reports, what is printed and written
"""

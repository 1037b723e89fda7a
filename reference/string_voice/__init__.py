"""The string voice of document 01 with 02's items 1 to 3, 5 and 6, in exact whole numbers and fractions: a file for each part of the document.

Written from the documents alone, for comparison with the product. Lent buffers are lists, and an accepted call writes into them. A refused call
raises Refused with 01's number before it writes anything.
"""

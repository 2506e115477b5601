"""the checker of measured boots, over logs and PCR values that the test makes itself"""

from examples.measured.tests import ends, enrolling, fleets, forms, fuzz, inputs, logs, machine, page, predicting, quotes

# the checks stand beside the checker
MODULES = [forms, logs, inputs, ends, fuzz, quotes, fleets, enrolling, predicting, page, machine]

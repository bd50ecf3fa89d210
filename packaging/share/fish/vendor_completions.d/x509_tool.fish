# Written by packaging/make_manual.py. SPDX-License-Identifier: MIT OR Apache-2.0
complete -c x509_tool -f -a 'algorithm certificate extensions name private-key public-key raw-algorithm request'

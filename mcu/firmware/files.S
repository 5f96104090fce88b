/*
 * SPDX-License-Identifier: Apache-2.0 OR MIT
 * Copyright 2026 The Gihandop authors
 *
 * The table file and the key file, as bytes in flash. The Makefile says which ones. The key file is a secret:
 * protect the flash of the chip from being read.
 */
    .section .rodata.files, "a"
    .global table_file, table_file_end, key_file, key_file_end
table_file:
    .incbin TABLE_FILE
table_file_end:
key_file:
    .incbin KEY_FILE
key_file_end:

"""What makes files: bytes of faces, cases with what is expected of them, faces for the benchmarks, tables of a page."""

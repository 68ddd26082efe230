"""What is expected: models of the calls, each written from the sentences of document 01, which it quotes."""

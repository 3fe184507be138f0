s/2 \* number + waits > records/2 * number > records/

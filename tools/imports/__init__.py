"""What csv-to-lines and ids share: tables of CSV, the map of ids, and the transactions that are made of them."""

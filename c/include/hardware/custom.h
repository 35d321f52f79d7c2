/* There is no hardware here; the header is empty. */

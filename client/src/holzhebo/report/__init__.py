"""One page of what a copy of a broker's file says, with what has changed since an earlier copy.

It is a second reading of the tables, by other statements than the broker's: it is tested against the broker's answers,
and nothing of it is proved. It says what was so when the copy was made. A deployment is decided by the broker alone."""

//! Stand-in, empty: a way of hashing values. The oracle feeds coupons and hashes nothing.

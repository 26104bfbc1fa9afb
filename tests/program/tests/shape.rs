//! The form of a listing, and texts that are just not of that form.

use program::shape::is_output;

#[test]
fn listings_and_refusals() {
    let good = [
        "refused 1\n",
        "refused 7\n",
        "refused 13\n",
        "refused 14\n",
        "no\nfinished 1 0 0 0 2\n",
        "all\nfinished 8 1 0 0 13\ns1\n",
        "all\nfinished 3 2 0 0 5\ntrue\ntrue\n",
        "all\nfinished 100000 1 0 0 100000\ns10 s0(s1,s0(s11,s110)) s100\n",
        "open\nfinished 3 1 0 1 5\ns0\n",
        "open\nbudget 100000 0 1 0 100000\n",
        "open\nbudget 0 0 1 0 0\n",
        "open\nbudget 33333 0 1 0 99999\n",
        "open\nstore 0 0 1 2 0\n",
        "open\nanswers 7 0 1 2 99999\n",
    ];
    for text in good {
        assert!(is_output(text.as_bytes()), "{text:?}");
    }
}

#[test]
fn other_texts() {
    let bad = [
        "",
        "\n",
        "refused 0\n",
        "refused 8\n",
        "refused 12\n",
        "refused 15\n",
        "refused 1",
        "refused 1\n\n",
        "refused 01\n",
        "no\n",
        "all\nfinished 1 0 0 0 2\n",
        "no\nfinished 1 1 0 0 2\ntrue\n",
        "no\nbudget 100000 0 1 0 100000\n",
        "no\nfinished 1 0 0 1 2\n",
        "open\nfinished 1 0 0 0 2\n",
        "open\nfinished 1 0 1 1 2\n",
        "open\nstore 100000 0 1 0 100000\n",
        "open\nbudget 100000 0 0 0 100000\n",
        "open\nbudget 33333 0 1 0 100001\n",
        "open\nanswers 7 0 1 2 100000\n",
        "all\nfinished 8 1 0 0\ns1\n",
        "all\nfinished 8 1 0 0 7\ns1\n",
        "all\nfinished 13 1 0 0 8\ns1\n",
        "all\nfinished 8 1 0 0 013\ns1\n",
        "all\nfinished 8 1 0 0 13 1\ns1\n",
        "all\nfinished 08 1 0 0 13\ns1\n",
        "all\nfinished 8 1 0 0 13 \ns1\n",
        "all\nfinished 8 1 0 0 13\n",
        "all\nfinished 8 1 0 0 13\ns1\ns1\n",
        "all\nfinished 8 1 0 0 13\n\n",
        "all\nfinished 8 1 0 0 13\ns01\n",
        "all\nfinished 8 1 0 0 13\ns1 \n",
        "all\nfinished 8 1 0 0 13\ns1()\n",
        "all\nfinished 8 1 0 0 13\ns1(s0\n",
        "all\nfinished 8 1 0 0 13\ns1(s0(s0)\n",
        "all\nfinished 8 1 0 0 13\ns1(s0 s0)\n",
        "all\nfinished 8 1 0 0 13\nv0\n",
        "all\nfinished 8 1 0 0 13\ns1(s0,v0)\n",
        "all\nfinished 8 1 0 0 13\ntrue s0\n",
    ];
    for text in bad {
        assert!(!is_output(text.as_bytes()), "{text:?}");
    }
    assert!(!is_output(&[255, 10]));
}

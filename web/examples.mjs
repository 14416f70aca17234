// Descriptors to begin with: the kind of object, and the text.
export const EXAMPLES = {
    folder: [
        "folder",
        "O:BAG:SYD:PAI(A;OICI;FA;;;SY)(A;OICI;FA;;;BA)(A;OICI;0x1200a9;;;BU)(A;CI;LC;;;BU)(A;CIIO;DC;;;BU)" +
            "(A;OICIIO;GA;;;CO)"
    ],
    share: [
        "folder",
        "O:S-1-5-21-1004336348-1177238915-682003330-1001G:S-1-5-21-1004336348-1177238915-682003330-513D:AI" +
            "(A;;FA;;;WD)(D;;WP;;;BU)(A;OICIID;0x1301bf;;;AU)(A;OICIID;FA;;;BA)S:AI(AU;OICISAFA;FA;;;WD)" +
            "(ML;OICI;NW;;;ME)"
    ],
    key: ["key", "O:SYG:SYD:PAI(A;CI;KA;;;SY)(A;CI;KA;;;BA)(A;CI;KR;;;BU)(A;CIIO;GA;;;CO)(A;CI;KR;;;AC)"],
    ds: [
        "ds",
        "O:BAG:BAD:AI(A;;CCDCLCSWRPWPDTLOCRSDRCWDWO;;;BA)(A;;RPLCLORC;;;AU)" +
            "(OA;;CR;ab721a53-1e2f-11d0-9819-00aa0040529b;;WD)(OA;;CR;ab721a53-1e2f-11d0-9819-00aa0040529b;;PS)" +
            "(OA;CI;RPWP;bf967a68-0de6-11d0-a285-00aa003049e2;bf967aba-0de6-11d0-a285-00aa003049e2;AO)"
    ],
    error: ["folder", "O:BAG:SYD:(A;OICI;FA;;;SY)(A;OICI;FA;;;Everyone)(A;;FR;;;BU)"],
};

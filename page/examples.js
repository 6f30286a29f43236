// Of examples/, by the program's answers; tools/page writes this file.
const EXAMPLES = [
    {
        "name": "A shop's checkout: two branches, and a cut",
        "context": "AvgABQAAABJnAvgBBwBjb3Vwb24C-AID8RxxAgADA_FdDgIAAQ.m3l-Tg",
        "other": "AvgABQAAABJnAvgCA_FdDgIAAQPxkbQCAAEC-AQE8WV1cgMAhRM.qloA0w",
        "budget": 50,
        "step": 14,
        "definition": "// The baggage of a checkout. Beside each field stands how two values of it are merged.\nbag Checkout {\n  fixed32 id = 0;               // keeps the minimum\n  set<string> tags = 1;         // union\n  counter hops = 2;             // each writer's greatest count, and their sum\n  taint debug = 3;              // once on, it stays on\n  map<string, uint32> load = 4; // merged key by key\n}\n",
        "bag": "Checkout",
        "next": "// A next version of checkout.bdl. What was written under that one may be read under this one; the other way round it may not, since a\n// load may now be greater than an older reader takes.\nbag Checkout {\n  fixed32 id = 0;\n  set<string> labels = 1;       // a field is known by its number, so it may get another name\n  counter hops = 2;\n  taint debug = 3;\n  map<string, uint64> load = 4; // each uint32 is a uint64, and is spelled alike\n  bool urgent = 5;              // a new field has a number of its own\n}\n",
        "graph": "# A checkout of a shop. The gateway starts it. A proxy, which knows no type, hands it to the cart and to pricing and merges\n# what comes back. The gateway gets the whole, and a partner a copy that is cut to 50 bytes. The writer of a count is one\n# visit of a service, by random bytes: two here, eight in services.\nservice gateway all\nservice proxy none\nservice cart only tags hops\nservice pricing only hops load\nservice partner all\n\nstart 0 gateway\nset 1 0 id 4711\nset 2 1 hops 0x5d0e:1\nforward 3 2 proxy\n\nforward 4 3 cart\nset 5 4 tags \"coupon\"\nset 6 5 hops 0x1c71:3\nforward 7 6 proxy\n\nforward 8 3 pricing\nset 9 8 load \"eur\":1299\nset 10 9 hops 0x91b4:1\nforward 11 10 proxy\n\njoin 12 7 11\ntrim 13 12 50\nforward 14 12 gateway\nforward 15 13 partner\nshow 14\nshow 15\n",
        "field": "hops"
    },
    {
        "name": "An order: bags inside bags, in form two",
        "context": "____AgAAAAAAAAAgAvgABwB3ZWIAAQcC-AEC8AEF6XNob3ACAAEC-AQCACg.YP2fgQ",
        "other": "____AgAAAAAAAAA4AvgABwB3ZWIAAQcC-AEC8AEF6XNob3ACAAEC-AIJ8QAAAAAAAAARAugABwBzcHJpbmcC-AQCAEE.9PdLuA",
        "budget": null,
        "step": 9,
        "definition": "// The baggage of an order: a struct, the greatest of several values, and bags inside bags, one of them from another file.\nimport \"examples/route.bdl\";\n\nstruct Version {\n  string name;\n  uint32 build;\n}\n\nbag Item {\n  set<string> coupons = 0;\n  counter reads = 1;\n}\n\nbag Order {\n  Version client = 0;            // one value of two fields\n  Route route = 1;               // a bag in place: its fields are slots of this one\n  map<fixed64, Item> items = 2;  // a bag for each key, in one slot\n  map<string, Route> tried = 3;\n  greatest<uint32> peak = 4;     // of several values the greatest stays\n}\n\n// file examples/route.bdl\n// The way that a request took.\nbag Route {\n  string zone = 0;\n  counter retries = 1;\n}\n",
        "bag": "Order",
        "next": "",
        "graph": "# An order of two branches at services that write form two, in which a reader knows from twelve bytes how much is to come.\nservice2 shop all\nservice2 relay none\n\nstart 0 shop\nset 1 0 client (\"web\",7)\nset 2 1 route.retries \"shop\":1\nset 3 2 peak 40\nbranch 4 2\nset 5 4 peak 65\nset 6 5 items 17:.coupons=\"spring\"\nforward 7 3 relay\nforward 8 6 relay\njoin 9 7 8\ntrim 10 9 60\nshow 9\nshow 10\n",
        "field": "items"
    },
    {
        "name": "A context that a cut has touched",
        "context": "AvgABQAAABJnAvgBBwBjb3Vwb24C-AID8RxxAgADA_FdDgIAAQPxkbQCAAEC-AQA.H6Dz_w",
        "other": "",
        "budget": null,
        "step": 15,
        "definition": "// The baggage of a checkout. Beside each field stands how two values of it are merged.\nbag Checkout {\n  fixed32 id = 0;               // keeps the minimum\n  set<string> tags = 1;         // union\n  counter hops = 2;             // each writer's greatest count, and their sum\n  taint debug = 3;              // once on, it stays on\n  map<string, uint32> load = 4; // merged key by key\n}\n",
        "bag": "Checkout",
        "next": "// A next version of checkout.bdl. What was written under that one may be read under this one; the other way round it may not, since a\n// load may now be greater than an older reader takes.\nbag Checkout {\n  fixed32 id = 0;\n  set<string> labels = 1;       // a field is known by its number, so it may get another name\n  counter hops = 2;\n  taint debug = 3;\n  map<string, uint64> load = 4; // each uint32 is a uint64, and is spelled alike\n  bool urgent = 5;              // a new field has a number of its own\n}\n",
        "graph": "# A checkout of a shop. The gateway starts it. A proxy, which knows no type, hands it to the cart and to pricing and merges\n# what comes back. The gateway gets the whole, and a partner a copy that is cut to 50 bytes. The writer of a count is one\n# visit of a service, by random bytes: two here, eight in services.\nservice gateway all\nservice proxy none\nservice cart only tags hops\nservice pricing only hops load\nservice partner all\n\nstart 0 gateway\nset 1 0 id 4711\nset 2 1 hops 0x5d0e:1\nforward 3 2 proxy\n\nforward 4 3 cart\nset 5 4 tags \"coupon\"\nset 6 5 hops 0x1c71:3\nforward 7 6 proxy\n\nforward 8 3 pricing\nset 9 8 load \"eur\":1299\nset 10 9 hops 0x91b4:1\nforward 11 10 proxy\n\njoin 12 7 11\ntrim 13 12 50\nforward 14 12 gateway\nforward 15 13 partner\nshow 14\nshow 15\n",
        "field": "hops"
    },
    {
        "name": "Without a definition",
        "context": "AvgABQAAABJnAvgBBwBjb3Vwb24C-AID8RxxAgADA_FdDgIAAQPxkbQCAAEC-AQE8WV1cgMAhRM.UvJjDw",
        "other": "",
        "budget": null,
        "step": null,
        "definition": "",
        "bag": "",
        "next": "",
        "graph": "",
        "field": ""
    }
];

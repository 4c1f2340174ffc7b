'use strict';
// A schema and its rows, for the tests.
const DOCUMENT = JSON.stringify({
  $Version: '4.01',
  Mini: {
    Item: {
      $Kind: 'EntityType', ID: { $Type: 'Edm.Int64' }, Name: { $Nullable: true }, Active: { $Type: 'Edm.Boolean' },
      Changed: { $Type: 'Edm.DateTimeOffset' }, Tags: { $Collection: true },
    },
  },
});

// types with each kind of property
const TYPES = JSON.stringify({
  $Version: '4.01',
  Mini: {
    Base: { $Kind: 'EntityType', ID: { $Type: 'Edm.Int64' } },
    Part: { $Kind: 'ComplexType' },
    Item: {
      $Kind: 'EntityType', $BaseType: 'Mini.Base', Tags: { $Collection: true, $Nullable: true },
      Weight: { $Type: 'Edm.Double', $Nullable: true },
      Parts: { $Kind: 'NavigationProperty', $Type: 'Mini.Base', $Collection: true },
    },
  },
});

/** An item, with a name as JSON. */
const row = (id, name, active) =>
  `{"ID":${id},"Name":${name},"Active":${active},"Changed":"2026-01-01T00:00:00Z","Tags":["a","b","c"]}`;

module.exports = { DOCUMENT, TYPES, row };

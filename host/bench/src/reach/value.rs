//! The same as JSON.

use super::{Account, Held, Row, DEEDS};
use crate::json::capability;
use crate::sheet::letters;
use serde_json::{json, Value};

/// The account: null for the steps where no handover was asked for.
pub fn account(account: &Account) -> Value {
    let nevers = account
        .nevers
        .iter()
        .map(|never| json!({ "never": never.text(), "holds": never.holds(account.rows) }));
    json!({
        "at": account.at,
        "steps": account.steps,
        "holds": account.holds(),
        "nevers": nevers.collect::<Vec<Value>>(),
        "rows": account.rows.iter().map(row).collect::<Vec<Value>>(),
    })
}

/// A region or, without a name and rights, a hole.
fn row(row: &Row) -> Value {
    let (name, rights) = row
        .region
        .as_ref()
        .map(|(name, rights)| (name, *rights))
        .unzip();
    let mut value = json!({
        "name": name,
        "start": row.start,
        "length": row.length,
        "rights": rights.map(letters),
        "granules": { "start": row.granules.0, "length": row.granules.1 },
        "isolated": row.is_isolated(),
    });
    for (deed, held) in DEEDS.iter().zip(&row.held) {
        value[deed.done] = self::held(held);
    }
    value
}

/// The first holders and how many there are.
fn held(held: &Held) -> Value {
    let by = held.first.iter().map(|holder| {
        let mut value = capability(holder.value);
        value["name"] = holder.name.clone().into();
        value["unsound"] = holder.unsound.into();
        value
    });
    json!({ "by": by.collect::<Vec<Value>>(), "all": held.all })
}

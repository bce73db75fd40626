//! The reference's stages for a request, permitted or not.

use crate::request::Request;
use reference::stages::Stages;

/// The stages of a request that is not malformed and gets no refusal 1 to 4, 17,
/// 14 or 6.
pub fn of_request(request: &Request) -> Option<Stages> {
    let data = request.decoded().ok()?;
    reference::explain(&data.plant, &data.readings, data.candidate).ok()
}

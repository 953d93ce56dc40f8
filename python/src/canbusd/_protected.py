"""The end-to-end protection profile of a message, given by a test or by attributes in a database."""

import re
from typing import TYPE_CHECKING, Any, Optional

from canbusd.e2e import Profile, Profile1, Profile2, Profile5, Profile11, Profile22

if TYPE_CHECKING:
    from canbusd._database.formats import MessageFormat


def profile_of(profile: object, message: "Optional[MessageFormat]") -> Profile:
    """Returns the profile for a message. If `profile` is None, the attributes of the message define it. Raises
    ValueError if the profile is unknown or does not suit the message."""
    if profile is None:
        found = None if message is None else profile_in(message)
        if found is None:
            where = "the database" if message is None else f"{message.name} in the database"
            raise ValueError(
                f"{where} has no attribute E2EProfile: give a profile, such as e2e.Profile1(data_id=0x123)"
            )
        profile = found
    if not isinstance(profile, Profile):
        known = "Profile1, Profile2, Profile5, Profile11, Profile22 or Signals"
        raise ValueError(f"profile is one of canbusd.e2e, {known}, not {profile!r}")
    return profile if message is None else profile.of(message)


def profile_in(message: "MessageFormat") -> Optional[Profile]:
    """Returns the profile that the attributes of a message in a DBC file define; None if there is no attribute
    E2EProfile.

    E2EProfile is the number of the profile, written as `5`, `P05` or `Profile5`. The other attributes are its
    arguments: E2EDataId, E2EDataIdMode, E2EOffset (in bits) and E2EMaxDelta. Profiles 2 and 22 use E2EDataIds, which is
    16 numbers separated by commas. Raises ValueError if an attribute is wrong.
    """
    given = {name: text for name, text in message.attributes.items() if name.startswith("E2E") and text}
    number = re.search("[1-9][0-9]*$", given.get("E2EProfile", ""))
    if number is None:
        return None
    found: Profile
    kind: Any = {"1": Profile1, "2": Profile2, "5": Profile5, "11": Profile11, "22": Profile22}.get(number[0])
    try:
        if kind is None:
            raise ValueError("there are the profiles 1, 2, 5, 11 and 22")
        offset, max_delta = int(given.get("E2EOffset", "0"), 0), int(given.get("E2EMaxDelta", "") or "0", 0) or 1
        if kind in (Profile2, Profile22):
            ids = [int(one, 0) for one in given.get("E2EDataIds", "").split(",") if one.strip()]
            found = kind(ids, offset, max_delta=max_delta)
            return found
        data_id = int(given.get("E2EDataId", "0"), 0)
        if kind is Profile5:
            return Profile5(data_id, offset, max_delta)
        mode = given.get("E2EDataIdMode", "both")
        found = kind(data_id, mode, offset, offset + 8, offset + 12, max_delta)
        return found
    except ValueError as fault:
        shown = ", ".join(f"{name}={text}" for name, text in given.items())
        raise ValueError(f"{message.place()}: attributes of {message.name}, {shown}: {fault}") from None

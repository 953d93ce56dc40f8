"""The memory of a simulated ECU for downloads and uploads (RequestDownload, RequestUpload and TransferData)."""

from dataclasses import dataclass
from typing import Optional

from canbusd._uds.codes import DOWNLOAD, TRANSFER, TRANSFER_EXIT, NegativeResponse, check_length

#: The maximum length of a TransferData message in bytes: the service, the block counter and the data.
BLOCK = 0x402


@dataclass
class Transfer:
    """A download or an upload that is in progress."""

    region: bytearray
    start: int
    size: int
    is_download: bool
    #: How many bytes were transferred, and the number of the next block.
    done: int = 0
    counter: int = 1


class Memory:
    """The ECU's memory: a dict whose keys are the start addresses of regions and whose values are their bytes."""

    def __init__(self) -> None:
        self.regions: dict[int, bytearray] = {}
        self._transfer: Optional[Transfer] = None

    def request(self, request: bytes) -> bytes:
        """Begins a download or an upload, and returns the positive response."""
        check_length(request, 5)
        sizes = request[2]
        address_size, size_size = sizes & 15, sizes >> 4
        if not address_size or not size_size or len(request) != 3 + address_size + size_size:
            raise NegativeResponse(0x13 if address_size and size_size else 0x31)
        address = int.from_bytes(request[3 : 3 + address_size], "big")
        size = int.from_bytes(request[3 + address_size :], "big")
        found = [
            (start, region)
            for start, region in self.regions.items()
            if start <= address and address + size <= start + len(region)
        ]
        if not found or not size:
            raise NegativeResponse(0x31)
        start, region = found[0]
        self._transfer = Transfer(region, address - start, size, request[0] == DOWNLOAD)
        return bytes([request[0] + 0x40, 0x20]) + BLOCK.to_bytes(2, "big")

    def transfer(self, request: bytes) -> bytes:
        """Transfers a block of data, and returns the positive response."""
        check_length(request, 2, BLOCK)
        going = self._going()
        if going.is_download and going.done and request[1] == (going.counter - 1) % 256:
            # The client repeats a block if it did not receive the response. In this case, the response is sent again,
            # but the block is not written again.
            return bytes([TRANSFER + 0x40, request[1]])
        if request[1] != going.counter % 256:
            raise NegativeResponse(0x73)
        data = request[2:]
        place = going.start + going.done
        left = going.size - going.done
        if going.is_download:
            if not data or len(data) > left:
                raise NegativeResponse(0x71)
            going.region[place : place + len(data)] = data
            content = b""
        else:
            if not left:
                raise NegativeResponse(0x24)
            content = bytes(going.region[place : place + min(left, BLOCK - 2)])
        going.done += len(data) or len(content)
        going.counter += 1
        return bytes([TRANSFER + 0x40, request[1]]) + content

    def end(self, request: bytes) -> bytes:
        """Ends a download or an upload, and returns the positive response."""
        going = self._going()
        if going.done < going.size:
            raise NegativeResponse(0x24)
        self._transfer = None
        return bytes([TRANSFER_EXIT + 0x40])

    def forget(self) -> None:
        """Ends the current transfer, for example when the session changes."""
        self._transfer = None

    def _going(self) -> Transfer:
        if self._transfer is None:
            raise NegativeResponse(0x24)
        return self._transfer

<?php
f()->a = 1;
